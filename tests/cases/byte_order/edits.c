/* The answer to edits: the trainer's sheet, both ends, edges of length, refusals of which later ones hold too, wrong entries of the tables,
 * tables stored under the limit of before, and the largest positions. In two cases a row is one entry short. */
#include "groups.h"
#include "print.h"
#include "show.h"

/* The tables of acbabcabcabac. */
#define REACH TABLE(3, 1, 1, 3, 2, 1, 3, 2, 1, 4, 1, 2, 1)
#define LAST TABLE(1, 2, 3, 1, 2, 3, 1, 2, 3, 1, 2, 1, 4)

static void sheet(bytes order) {
    print_heading("P5 to P9, P12 and P13");
    show_edit(BYTES("acbabcabcabac"), order, 5, 6, BYTES("b"), 1, 1);
    show_edit(BYTES("acbabcabcabac"), order, 11, 11, BYTES("a"), 2, 4);
    show_edit(BYTES("acbabcabcabac"), order, 9, 10, BYTES(""), 1, 1);
    show_edit(BYTES("acbabcabcabac"), order, 1, 3, BYTES("bac"), 1, 1);
    show_edit(BYTES("acbabcabcabac"), order, 7, 10, BYTES(""), 2, 2);
    show_edit(BYTES("aa"), order, 1, 1, BYTES("a"), 1, 3);
    show_edit(BYTES("aba"), order, 3, 3, BYTES("c"), 1, 1);
}

static void ends(bytes order) {
    print_heading("both ends, an empty pattern, an empty block, the whole pattern replaced");
    show_edit(BYTES("acbabcabcabac"), order, 0, 0, BYTES("a"), 2, 2);
    show_edit(BYTES("acbabcabcabac"), order, 13, 13, BYTES("b"), 2, 2);
    show_edit(BYTES(""), order, 0, 0, BYTES("ab"), 1, 1);
    show_edit(BYTES(""), order, 0, 0, BYTES(""), 0, 0);
    show_edit(BYTES("abc"), order, 1, 1, BYTES(""), 1, 1);
    show_edit(BYTES("abc"), order, 0, 3, BYTES("ba"), 2, 2);
    show_edit(BYTES("abc"), order, 0, 3, BYTES(""), 0, 0);
}

static void places(bytes order) {
    print_heading("refusals, with later ones true");
    show_edit(letters('a', 16385), order, 2, 1, letters('b', 257), 0, 0);
    show_edit(BYTES("abc"), order, 2, 1, letters('b', 257), 0, 0);
    show_edit(BYTES("abc"), order, SIZE_MAX, SIZE_MAX, BYTES(""), 0, 0);
    show_edit(BYTES("abc"), order, 0, SIZE_MAX, BYTES(""), 0, 0);
    show_edit(BYTES("abc"), order, 0, 4, BYTES(""), 0, 0);
}

static void sizes(bytes order) {
    show_edit(letters('a', 16288), order, 0, 0, letters('b', 257), 0, 0);
    show_edit_with(letters('a', 16288), order, NO_ENTRIES, NO_ENTRIES, 0, 0, letters('b', 97), 0, 0);
    show_edit_with(BYTES("abc"), order, NO_ENTRIES, NO_ENTRIES, 0, 0, BYTES("b"), 0, 0);
    show_edit(BYTES("acbabcabcabac"), order, 11, 11, BYTES("a"), 1, 4);
    show_edit(BYTES("acbabcabcabac"), order, 11, 11, BYTES("a"), 2, 3);
}

static void longest(bytes order) {
    print_heading("an edited length of 16384, a block of 256");
    show_edit(letters('a', 16128), order, 16128, 16128, letters('b', 256), 1, 1);
    show_edit(letters('a', 16129), order, 16129, 16129, letters('b', 256), 1, 1);
}

/* One entry of a table is one too large. */
static void wrong_array(bytes order, size_t at, uint16_t value) {
    show_edit_with(BYTES("acbabcabcabac"), order, changed(REACH, at, value), LAST, 5, 6, BYTES("b"), 0, 0);
}

static void wrong_last(bytes order, size_t at, uint16_t value) {
    show_edit_with(BYTES("acbabcabcabac"), order, REACH, changed(LAST, at, value), 5, 6, BYTES("b"), 0, 0);
}

static void tables(bytes order) {
    print_heading("tables with a wrong entry: the first, a middle one, the last; right ones");
    wrong_array(order, 0, 4);
    wrong_last(order, 0, 2);
    wrong_array(order, 6, 4);
    wrong_last(order, 6, 2);
    wrong_array(order, 12, 2);
    wrong_last(order, 12, 5);
    show_edit_with(BYTES("acbabcabcabac"), order, REACH, LAST, 5, 6, BYTES("b"), 1, 1);
}

/* Tables that were stored when 4,096 bytes were the limit, here of a .. a b, the longest there was: 4096 4095 .. 1, and 1 1 .. 1 4096. */
static void stored(bytes order) {
    print_heading("stored tables of 4096 bytes: a .. a b");
    static uint8_t space[4096];
    static uint16_t falling[4096], last[4096];
    for (size_t k = 0; k < 4096; k++) {
        falling[k] = (uint16_t)(4096 - k);
        last[k] = 1;
    }
    last[4095] = 4096;
    bytes pattern = all_but_last(space, 4096);
    table array = { falling, 4096 }, last_factors = { last, 4096 };
    show_edit_with(pattern, order, array, last_factors, 2048, 2049, BYTES("b"), 1, 1);
    show_factor_prefix(pattern, order, last_factors, 4096, 3);
    show_factor_suffix(pattern, order, array, 4000, 3);
}

void run_edits(bytes order) {
    sheet(order);
    ends(order);
    places(order);
    sizes(order);
    longest(order);
    tables(order);
    stored(order);
}
