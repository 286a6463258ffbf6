/* Strings, tables and orders that cases give, as given.h says. What a function gives lies in a space of that function's own, so that cases can
 * give several at once. */
#include "given.h"

#include <stdlib.h>
#include <string.h>

bytes part(bytes s, size_t from, size_t to) {
    if (from > to || to > s.n) abort();
    return (bytes){ s.at + from, to - from };
}

bytes letters(char letter, size_t n) {
    static uint8_t space[26][MOST_GIVEN];
    if (letter < 'a' || letter > 'z' || n > MOST_GIVEN) abort();
    uint8_t *row = space[letter - 'a'];
    memset(row, letter, n);
    return (bytes){ row, n };
}

bytes all_but_last(uint8_t *space, size_t n) {
    memset(space, 'a', n);
    space[n - 1] = 'b';
    return (bytes){ space, n };
}

table entries(uint16_t value, size_t n) {
    static uint16_t space[2][MOST_GIVEN];
    if (value > 1 || n > MOST_GIVEN) abort();
    for (size_t k = 0; k < n; k++) space[value][k] = value;
    return (table){ space[value], n };
}

table changed(table t, size_t at, uint16_t value) {
    static uint16_t space[MOST_CHANGED];
    if (t.n > MOST_CHANGED || at >= t.n) abort();
    memcpy(space, t.at, t.n * sizeof *space);
    space[at] = value;
    return (table){ space, t.n };
}

bytes byte_order(uint8_t *space) {
    size_t count = 0;
    lyndon_byte_order(space, LYNDON_ORDER, &count);
    return (bytes){ space, LYNDON_ORDER };
}

#define ROOM (LYNDON_MAX_PATTERN + 1)

/* A row of a space, each entry OLD. */
static uint16_t *old(uint16_t *space, size_t room) {
    if (room > ROOM) abort();
    for (size_t k = 0; k < room; k++) space[k] = OLD;
    return space;
}

table array_of(bytes pattern, bytes order, size_t room) {
    static uint16_t space[ROOM];
    size_t count = 0;
    lyndon_array(pattern.at, pattern.n, order.at, order.n, old(space, room), room, &count);
    return (table){ space, room };
}

table last_factors_of(bytes pattern, bytes order, size_t room) {
    static uint16_t space[ROOM];
    size_t count = 0;
    lyndon_last_factors(pattern.at, pattern.n, order.at, order.n, old(space, room), room, &count);
    return (table){ space, room };
}
