/* Refusal 5: a table that is shorter than the pattern, or one of whose first n entries is wrong, though the answer may not need it. Entries
 * behind the first n may be any. */
#include "groups.h"
#include "print.h"
#include "show.h"

/* P11's tables. */
#define LAST TABLE(1, 2, 1, 2, 5, 1, 2, 1, 2, 5, 1, 2, 13)
#define REACH TABLE(13, 1, 3, 1, 1, 8, 1, 3, 1, 1, 3, 1, 1)

/* A table of 0 entries, one entry too short, and longer: past the first n, entries are not read. */
static void lengths(bytes s, bytes order) {
    print_heading("tables: none, one short, longer");
    show_factor_prefix(s, order, NO_ENTRIES, 11, 6);
    show_factor_prefix(s, order, TABLE(1, 2, 1, 2, 5, 1, 2, 1, 2, 5, 1, 2), 11, 6);
    show_factor_prefix(s, order, TABLE(1, 2, 1, 2, 5, 1, 2, 1, 2, 5, 1, 2, 13, OLD, 0), 11, 6);
    show_factor_suffix(s, order, NO_ENTRIES, 1, 9);
    show_factor_suffix(s, order, TABLE(13, 1, 3, 1, 1, 8, 1, 3, 1, 1, 3, 1), 1, 9);
    show_factor_suffix(s, order, TABLE(13, 1, 3, 1, 1, 8, 1, 3, 1, 1, 3, 1, 1, OLD, 0), 1, 9);
}

static void swapped(bytes s, bytes order) {
    print_heading("tables: the other one");
    show_factor_prefix(s, order, REACH, 11, 6);
    show_factor_suffix(s, order, LAST, 1, 9);
}

/* One entry of the table set to a value that it must not have. */
static void prefix(bytes s, bytes order, size_t at, uint16_t value, size_t end) {
    show_factor_prefix(s, order, changed(LAST, at, value), end, 6);
}

static void suffix(bytes s, bytes order, size_t at, uint16_t value, size_t start) {
    show_factor_suffix(s, order, changed(REACH, at, value), start, 9);
}

/* The first entry, one in the middle and the last. */
static void wrong(bytes s, bytes order) {
    print_heading("tables: one wrong entry");
    prefix(s, order, 0, 2, 11);
    prefix(s, order, 6, 1, 11);
    prefix(s, order, 12, 12, 11);
    prefix(s, order, 12, 0, 11);
    prefix(s, order, 12, 65535, 0);
    suffix(s, order, 0, 12, 1);
    suffix(s, order, 6, 2, 1);
    suffix(s, order, 12, 2, 1);
    suffix(s, order, 12, 0, 1);
    suffix(s, order, 0, 65535, 13);
}

void run_wrong_tables(bytes order) {
    lengths(BYTES("ababbababbabb"), order);
    swapped(BYTES("ababbababbabb"), order);
    wrong(BYTES("ababbababbabb"), order);
}
