/* Every string of seven letters to length 6 read as a definite length block, and patterns to 1,100 bytes written and read again, held to
 * the definitions in naive.c. Longer and damaged ones are left to tests/compare. */
#include "naive.h"
#include "tests.h"

#include <string.h>

#define LETTERS "#0129\na"
#define LONGEST 6
#define LONGEST_PATTERN 1100

static bool reads_as_naive(bytes block) {
    told want = { 0, { 0, 0 } };
    if (!naive_extent(block, &want.number[0], &want.number[1])) want = REFUSED(9);
    return reads_block(block, want);
}

/* All strings that begin with the first n letters of `at`; answers how many of them were read wrongly. */
static size_t wrong_from(uint8_t *at, size_t n) {
    size_t wrong = !reads_as_naive((bytes){ at, n });
    if (n == LONGEST) return wrong;
    for (size_t k = 0; k < sizeof LETTERS - 1; k++) {
        at[n] = (uint8_t)LETTERS[k];
        wrong += wrong_from(at, n + 1);
    }
    return wrong;
}

/* A case for each two first letters. */
static void short_strings(void) {
    uint8_t at[LONGEST];
    check(reads_as_naive((bytes){ at, 0 }), "the empty string");
    for (size_t k = 0; k < sizeof LETTERS - 1; k++) {
        at[0] = (uint8_t)LETTERS[k];
        check(reads_as_naive((bytes){ at, 1 }), "the string %02X", at[0]);
        for (size_t i = 0; i < sizeof LETTERS - 1; i++) {
            at[1] = (uint8_t)LETTERS[i];
            size_t wrong = wrong_from(at, 2);
            check(wrong == 0, "%zu strings that begin with %02X %02X", wrong, at[0], at[1]);
        }
    }
}

static void written_and_read(bytes w) {
    uint8_t block[LYNDON_MAX_DEFINITE_BLOCK];
    size_t size = naive_block(w, block), count = 0;
    check(fills_any_row(BLOCK, w, NO_ORDER, (told){ 0, { size, 0 } }, (result){ block, size }), "lyndon_write_block of %zu bytes", w.n);
    memset(block, 0, sizeof block);
    uint8_t refusal = lyndon_write_block(w.at, w.n, block, sizeof block, &count);
    bool good = refusal == 0 && count <= sizeof block && reads_block((bytes){ block, count }, (told){ 0, { count - w.n, w.n } });
    check(good && memcmp(block + count - w.n, w.at, w.n) == 0, "a block of %zu bytes, read again", w.n);
}

void test_blocks(void) {
    part("every string of seven letters to length 6 as a block, and patterns to 1100 bytes written and read again");
    short_strings();
    uint8_t pattern[LONGEST_PATTERN];
    for (size_t k = 0; k < sizeof pattern; k++) pattern[k] = (uint8_t)(k * k * 7 + k / 3);
    for (size_t n = 0; n <= sizeof pattern; n++) written_and_read((bytes){ pattern, n });
}
