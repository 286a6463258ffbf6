/* Strings for the tests: every short one, and ones without rule. What is right for them is left to naive.c. */
#ifndef WORDS_H
#define WORDS_H

#include "check.h"

/* The longest of these strings, and of those that naive.c takes. */
#define SHORT 64

/* All strings of two or three letters up to a length, shorter ones first. The letters are 7F, 80 and 00: a signed comparison would take them
 * another way. */
typedef struct {
    size_t letters, longest;
    size_t n, number, count; /* the next string: its length, and which of so many of that length it is */
    uint8_t at[SHORT];
} words;

words every_word(size_t letters, size_t longest);

/* Sets *w to the next string, which lasts until the one after it; false where there is none. */
bool next_word(words *all, bytes *w);

/* Numbers without rule, the same in every run. */
typedef uint64_t chance;

/* A number below n. */
size_t draw(chance *c, size_t n);

/* Fills `at` with n bytes, each one of the first `letters`. */
bytes random_word(chance *c, uint8_t *at, size_t n, size_t letters);

#endif
