/* Strings, tables and orders as cases give them: written out, one value repeated, or made by the calls themselves.
 * What is done with them is left to show.h and to the cases. */
#ifndef GIVEN_H
#define GIVEN_H

#include <stddef.h>
#include <stdint.h>

#include "lyndon.h"

/* A string of bytes, an order among them. */
typedef struct {
    const uint8_t *at;
    size_t n;
} bytes;

/* The entries of a table. */
typedef struct {
    const uint16_t *at;
    size_t n;
} table;

/* The bytes of a literal without its closing zero; the numbers of a list. */
#define BYTES(s) ((bytes){ (const uint8_t *)(s), sizeof(s) - 1 })
#define TABLE(...) ((table){ (const uint16_t[]){ __VA_ARGS__ }, sizeof((const uint16_t[]){ __VA_ARGS__ }) / sizeof(uint16_t) })
#define NO_ENTRIES ((table){ &(const uint16_t){ 0 }, 0 })

/* What each entry of a row holds before a call. */
#define OLD 7777

/* The most of `letters` and `entries`. */
#define MOST_GIVEN 65536

/* The bytes from a place up to another. */
bytes part(bytes s, size_t from, size_t to);

/* A letter a to z so many times. */
bytes letters(char letter, size_t n);

/* As many a's as fill the space, but b at the last place. */
bytes all_but_last(uint8_t *space, size_t n);

/* An entry of 0 or 1 so many times. */
table entries(uint16_t value, size_t n);

/* A table of up to MOST_CHANGED entries with another entry at a place. */
#define MOST_CHANGED 16
table changed(table t, size_t at, uint16_t value);

/* Byte order in the first LYNDON_ORDER bytes of a space, as the engine writes it. */
bytes byte_order(uint8_t *space);

/* A table of the pattern in a row of `room` entries. The next call of the same function overwrites it. */
table array_of(bytes pattern, bytes order, size_t room);
table last_factors_of(bytes pattern, bytes order, size_t room);

#endif
