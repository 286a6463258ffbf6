/* Wanted reach tables: what no pattern has, 12, beside what is next to it and has one; over 256 entries, 11; short buffers, 8, which comes last.
 * What is printed of a pattern is its reach table, and what is behind it in the buffer. */
#include "groups.h"
#include "print.h"
#include "show.h"

/* An entry of 0, one past the end, the largest one, at the first place and at the last. */
static void bounds(bytes order) {
    print_heading("no pattern: an entry of 0, or one past the end");
    show_realise_array(TABLE(0), order, 2);
    show_realise_array(TABLE(2), order, 2);
    show_realise_array(TABLE(65535), order, 2);
    show_realise_array(TABLE(0, 1), order, 2);
    show_realise_array(TABLE(1, 0), order, 2);
    show_realise_array(TABLE(3, 1), order, 2);
    show_realise_array(TABLE(1, 2), order, 2);
    show_realise_array(TABLE(65535, 1), order, 2);
    show_realise_array(TABLE(1, 65535), order, 2);
}

/* A stretch that crosses the one before it, at the start of a table and in the middle of a longer one; then the same with one of the two shorter or
 * longer, so that they nest. */
static void crossing(bytes order) {
    print_heading("no pattern: crossing stretches; then what nests");
    show_realise_array(TABLE(2, 2, 1), order, 3);
    show_realise_array(TABLE(6, 1, 2, 3, 1, 1), order, 6);
    show_realise_array(TABLE(6, 1, 3, 1, 2, 1), order, 6);
    show_realise_array(TABLE(3, 2, 1), order, 3);
    show_realise_array(TABLE(6, 1, 2, 1, 1, 1), order, 6);
    show_realise_array(TABLE(6, 1, 2, 1, 2, 1), order, 6);
    show_realise_array(TABLE(6, 1, 4, 1, 2, 1), order, 6);
}

static void rooms(table wanted, bytes order) {
    print_heading("buffers: none, one short, exact, longer");
    show_realise_array(wanted, order, 0);
    show_realise_array(wanted, order, 5);
    show_realise_array(wanted, order, 6);
    show_realise_array(wanted, order, 8);
}

static void empty(table wanted, bytes order) {
    print_heading("no entries: the empty pattern, with any buffer");
    show_realise_array(wanted, order, 0);
    show_realise_array(wanted, order, 3);
}

static void several(bytes order) {
    print_heading("refusals that hold: 11 12 8; 11 12; 11 8; 11; 12 8; 8");
    show_realise_array(entries(0, 257), order, 0);
    show_realise_array(entries(0, 257), order, 257);
    show_realise_array(entries(1, 257), order, 256);
    show_realise_array(entries(1, 257), order, 257);
    show_realise_array(entries(0, 256), order, 0);
    show_realise_array(entries(1, 256), order, 0);
}

/* Each table is that of a pattern with the most factors, or with one. */
static void longest(bytes order) {
    print_heading("256 entries: 1 .. 1; 256 255 .. 1, a buffer one short, exact, longer; 65536 entries");
    show_realise_array(entries(1, 256), order, 256);
    uint8_t space[256];
    table falling = array_of(all_but_last(space, 256), order, 256);
    show_realise_array(falling, order, 255);
    show_realise_array(falling, order, 256);
    show_realise_array(falling, order, 258);
    show_realise_array(entries(1, 65536), order, 3);
}

void run_wanted(bytes order) {
    bounds(order);
    crossing(order);
    rooms(TABLE(6, 1, 4, 1, 2, 1), order);
    empty(NO_ENTRIES, order);
    several(order);
    longest(order);
}
