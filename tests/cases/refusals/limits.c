/* The longest patterns: 16,384 bytes are accepted and more are refused with 1; a tree's word of 256 bytes is accepted and more are refused
 * with 6. The longest wanted table is in wanted.c. */
#include "groups.h"
#include "print.h"
#include "show.h"

/* Each call on one pattern that has refusal 1, but the listing and the edit. Both questions ask for the groups of the whole pattern; the tables
 * are in rows of this length. */
static void each_call(bytes pattern, bytes order, size_t room) {
    show_factor(pattern, order, 4);
    show_array(pattern, order, 16385);
    show_last_factors(pattern, order, 16385);
    show_longest_words(pattern, order, 2);
    show_longest_word(pattern, order);
    show_is_lyndon(pattern, order);
    show_least_rotation(pattern, order);
    show_factor_prefix(pattern, order, last_factors_of(pattern, order, room), pattern.n, 4);
    show_factor_suffix(pattern, order, array_of(pattern, order, room), 0, 4);
}

/* a .. a b, one Lyndon word of 16,384 bytes: its Lyndon array is 16384 16383 .. 1, its prefix table 1 1 .. 1 16384. */
static void accepted(bytes order) {
    print_heading("16384 bytes: a .. a b");
    static uint8_t space[16384];
    each_call(all_but_last(space, 16384), order, 16384);
}

static void refused(bytes order) {
    print_heading("16385 bytes: a .. a b");
    static uint8_t space[16385];
    each_call(all_but_last(space, 16385), order, 16385);
    print_heading("65536 bytes");
    each_call(letters('a', 65536), order, 16385);
}

/* 16,384 factors: one group, a table of ones, 16,384 starts; no phase mark, since one letter is repeated. */
static void repeated(bytes pattern, bytes order) {
    print_heading("16384 bytes: a .. a");
    show_factor(pattern, order, 3);
    show_array(pattern, order, 16383);
    show_array(pattern, order, 16384);
    show_last_factors(pattern, order, 16383);
    show_last_factors(pattern, order, 16384);
    show_longest_words(pattern, order, 16383);
    show_longest_words(pattern, order, 16384);
    show_longest_words(pattern, order, 16385);
    show_is_lyndon(pattern, order);
    show_least_rotation(pattern, order);
}

static void last_start(bytes order) {
    print_heading("16384 bytes: a .. a b a");
    static uint8_t space[16384];
    all_but_last(space, 16383);
    space[16383] = 'a';
    show_least_rotation((bytes){ space, 16384 }, order);
}

/* a .. a b: 511 nodes, 1,022 numbers. The tree has no refusal 1. */
static void trees(bytes order) {
    print_heading("256 bytes: a .. a b, a row one short, exact, longer");
    uint8_t space[257];
    bytes longest = all_but_last(space, 256);
    show_tree(longest, order, 1021);
    show_tree(longest, order, 1022);
    show_tree(longest, order, 1024);
    print_heading("257 bytes: a .. a b, and 16385 bytes");
    show_tree(all_but_last(space, 257), order, 1026);
    show_tree(letters('a', 16385), order, 1026);
}

/* Either string is enough. */
static void comparisons(bytes accepted, bytes refused, bytes order) {
    print_heading("compared: 16384 bytes a .. a and 16385; 65536 bytes");
    show_compare(accepted, accepted, order);
    show_compare(accepted, BYTES("b"), order);
    show_compare(refused, accepted, order);
    show_compare(accepted, refused, order);
    show_compare(refused, refused, order);
    show_compare(BYTES("b"), refused, order);
    show_compare(letters('a', 65536), BYTES(""), order);
}

void run_limits(bytes order) {
    accepted(order);
    refused(order);
    repeated(letters('a', 16384), order);
    last_start(order);
    trees(order);
    comparisons(letters('a', 16384), letters('a', 16385), order);
}
