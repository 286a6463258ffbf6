/* Strings on which the calls behave differently, as families.h says: repeated, falling, rising, self-similar and without order.
 * Four of them are Lyndon words, whose trees lean to either side. */
#include "families.h"

static unsigned ones(size_t k) {
    return (unsigned)__builtin_popcountll(k);
}

/* The Fibonacci word by its own letters: letter k is b where k written in Fibonacci numbers ends in 1. */
static uint8_t fibonacci(size_t k) {
    size_t small = 1, large = 2, rest = k;
    while (large <= rest) {
        size_t next = small + large;
        small = large;
        large = next;
    }
    while (rest > 1) {
        if (small <= rest) rest -= small;
        size_t before = large - small;
        large = small;
        small = before;
    }
    return rest == 1 ? 'b' : 'a';
}

static uint8_t letter(size_t which, size_t k, size_t n) {
    switch (which) {
    case 0: return 'a';                                              /* a a a .. */
    case 1: return k + 1 == n ? 'b' : 'a';                           /* a .. ab, a Lyndon word */
    case 2: return k == 0 ? 'a' : 'b';                               /* ab .. b, a Lyndon word */
    case 3: return k % 2 == 0 ? 'a' : 'b';                           /* ab ab .. */
    case 4: return (uint8_t)(k * 256 / n);                           /* rising: a Lyndon word where no byte repeats */
    case 5: return (uint8_t)(255 - k * 256 / n);                     /* falling: a group for each byte that differs */
    case 6: return fibonacci(k);
    case 7: return ones(k) % 2 == 0 ? 'a' : 'b';                     /* Thue-Morse */
    case 8: return k + 1 == n / 2 || k + 1 == n ? 'b' : 'a';         /* a .. ab a .. ab */
    case 9: return k + 1 == n ? 'z' : (uint8_t)('a' + __builtin_ctzll(k + 1)); /* abacabad ..: a Lyndon word of halves */
    default: return (uint8_t)((k * 2654435761u + k * k * 40503u) >> 13); /* without order */
    }
}

void family(size_t which, uint8_t *at, size_t n) {
    for (size_t k = 0; k < n; k++) at[k] = letter(which, k, n);
}
