/* Where several refusals hold, the smallest number is answered, and nothing is written. A heading names those that hold, case by case. The call
 * that tests 11 and 12 before 8 is in wanted.c; 13, which comes before all of them, is left to other_orders. */
#include "groups.h"
#include "print.h"
#include "show.h"

static void prefixes(bytes s, bytes order) {
    print_heading("refusals that hold: 2 5 8; 2 5; 2 8; 5 8; 8");
    show_factor_prefix(s, order, NO_ENTRIES, 5, 2);
    show_factor_prefix(s, order, TABLE(1, 2, 1, 1), 5, 3);
    show_factor_prefix(s, order, TABLE(1, 2, 1, 2), 5, 2);
    show_factor_prefix(s, order, TABLE(1, 2, 1, 1), 4, 2);
    show_factor_prefix(s, order, TABLE(1, 2, 1, 2), 4, 2);
}

static void suffixes(bytes s, bytes order) {
    print_heading("refusals that hold: 2 5 8; 2 5; 2 8; 5 8; 8");
    show_factor_suffix(s, order, NO_ENTRIES, 5, 2);
    show_factor_suffix(s, order, TABLE(4, 1, 2, 1), 5, 3);
    show_factor_suffix(s, order, TABLE(2, 1, 2, 1), 5, 2);
    show_factor_suffix(s, order, TABLE(4, 1, 2, 1), 0, 2);
    show_factor_suffix(s, order, TABLE(2, 1, 2, 1), 0, 2);
}

/* 16,385 bytes, tables and rows of 0 entries, the largest position. */
static void long_pattern(bytes s, bytes order) {
    print_heading("refusals that hold: 1 8");
    show_factor(s, order, 0);
    show_array(s, order, 0);
    show_last_factors(s, order, 0);
    show_longest_words(s, order, 0);
    print_heading("refusals that hold: 1 10");
    show_least_rotation(s, order);
    print_heading("refusals that hold: 1 2 5 8");
    show_factor_prefix(s, order, NO_ENTRIES, SIZE_MAX, 0);
    show_factor_suffix(s, order, NO_ENTRIES, SIZE_MAX, 0);
}

static void trees(bytes order) {
    print_heading("refusals that hold: 6 7 8; 7 8; 7; 7");
    show_tree(letters('a', 257), order, 0);
    show_tree(letters('a', 256), order, 0);
    show_tree(BYTES("abab"), order, 14);
    show_tree(BYTES("ba"), order, 6);
}

void run_several(bytes order) {
    prefixes(BYTES("abab"), order);
    suffixes(BYTES("abab"), order);
    long_pattern(letters('a', 16385), order);
    trees(order);
}
