/* Strings for the tests, as words.h says. */
#include "words.h"

words every_word(size_t letters, size_t longest) {
    return (words){ .letters = letters, .longest = longest, .count = 1 };
}

bool next_word(words *all, bytes *w) {
    static const uint8_t letter[] = { 0x7F, 0x80, 0x00 };
    if (all->number == all->count) {
        all->n++;
        all->number = 0;
        all->count *= all->letters;
    }
    if (all->n > all->longest) return false;
    size_t rest = all->number;
    for (size_t k = all->n; k > 0; k--) {
        all->at[k - 1] = letter[rest % all->letters];
        rest /= all->letters;
    }
    all->number++;
    *w = (bytes){ all->at, all->n };
    return true;
}

size_t draw(chance *c, size_t n) {
    *c = *c * 6364136223846793005u + 1442695040888963407u;
    return (size_t)(*c >> 33) % n;
}

bytes random_word(chance *c, uint8_t *at, size_t n, size_t letters) {
    for (size_t k = 0; k < n; k++) at[k] = (uint8_t)draw(c, letters);
    return (bytes){ at, n };
}
