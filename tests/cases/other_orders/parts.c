/* Factors of a prefix and of a suffix by the tables under the order, wanted tables, and listings. Words are of the bytes, and only where they
 * are cut is told by the ranks. */
#include "groups.h"
#include "show.h"

static void prefixes(bytes s, bytes order) {
    table last_factors = last_factors_of(s, order, 13);
    show_factor_prefix(s, order, last_factors, 0, 0);
    show_factor_prefix(s, order, last_factors, 5, 12);
    show_factor_prefix(s, order, last_factors, 8, 15);
    show_factor_prefix(s, order, last_factors, 13, 12);
}

static void suffixes(bytes s, bytes order) {
    table array = array_of(s, order, 13);
    show_factor_suffix(s, order, array, 0, 12);
    show_factor_suffix(s, order, array, 4, 15);
    show_factor_suffix(s, order, array, 9, 9);
    show_factor_suffix(s, order, array, 13, 0);
}

static void both(bytes s, bytes order) {
    show_factor_prefix(s, order, last_factors_of(s, order, 25), 25, 6);
    show_factor_suffix(s, order, array_of(s, order, 25), 0, 6);
}

/* P10, its reduction and P11: any table that a pattern has, one has under every order. */
static void wanted(bytes order) {
    show_realise_array(TABLE(9, 1, 1, 6, 2, 1, 3, 1, 1), order, 9);
    show_realise_array(TABLE(6, 1, 4, 1, 2, 1), order, 6);
    show_realise_array(TABLE(13, 1, 3, 1, 1, 8, 1, 3, 1, 1, 3, 1, 1), order, 14);
    show_realise_array(TABLE(2, 2, 1), order, 3);
}

/* The words and their shared lengths are of the bytes. */
static void listings(bytes order) {
    show_write_listing(BYTES("ab"), order, 56);
    show_write_listing(BYTES("ba"), order, 56);
    show_write_listing(BYTES("acbabcabcabac"), order, 100);
    show_write_listing(BYTES("\x00\x01\x01\x00\x02\x03\x01\x02\x02"), order, 100);
}

void run_parts(bytes order) {
    prefixes(BYTES("acbabcabcabac"), order);
    suffixes(BYTES("acbabcabcabac"), order);
    both(BYTES("baaaaaaaacccccccccccccccc"), order);
    wanted(order);
    listings(order);
}
