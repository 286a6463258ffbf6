/* Refusal 8, for each call that fills a row: a row of 0 entries, one entry too short, exact, and longer. A short row is left as it was, a longer
 * one keeps its entries past the result. */
#include "groups.h"
#include "print.h"
#include "show.h"

static void factor(bytes s, bytes order) {
    show_factor(s, order, 0);
    show_factor(s, order, 8);
    show_factor(s, order, 9);
    show_factor(s, order, 11);
}

/* P6's edited pattern: of its four longest words two are equal, and each start is listed. */
static void longest_words(bytes s, bytes order) {
    show_longest_words(s, order, 0);
    show_longest_words(s, order, 3);
    show_longest_words(s, order, 4);
    show_longest_words(s, order, 6);
    show_longest_word(s, order);
}

static void tables(bytes s, bytes order) {
    show_array(s, order, 0);
    show_array(s, order, 12);
    show_array(s, order, 13);
    show_array(s, order, 15);
    show_last_factors(s, order, 0);
    show_last_factors(s, order, 12);
    show_last_factors(s, order, 13);
    show_last_factors(s, order, 15);
}

static void tree(bytes w, bytes order) {
    show_tree(w, order, 0);
    show_tree(w, order, 17);
    show_tree(w, order, 18);
    show_tree(w, order, 20);
}

static void parts(bytes s, bytes order, table last_factors, table array) {
    show_factor_prefix(s, order, last_factors, 11, 0);
    show_factor_prefix(s, order, last_factors, 11, 5);
    show_factor_prefix(s, order, last_factors, 11, 6);
    show_factor_prefix(s, order, last_factors, 11, 8);
    show_factor_suffix(s, order, array, 1, 0);
    show_factor_suffix(s, order, array, 1, 8);
    show_factor_suffix(s, order, array, 1, 9);
    show_factor_suffix(s, order, array, 1, 11);
}

/* The room is held against the result, not against what the longest result of that length would need. */
static void measured(bytes order) {
    show_factor(BYTES("aaaaaaaa"), order, 3);
    show_longest_words(BYTES("aaaaaaab"), order, 1);
}

void run_short_rows(bytes order) {
    print_heading("rows: none, one short, exact, longer");
    factor(BYTES("acbabcabcabac"), order);
    longest_words(BYTES("acbabcabcabaac"), order);
    tables(BYTES("ababbababbabb"), order);
    tree(BYTES("aabab"), order);
    parts(BYTES("ababbababbabb"), order, TABLE(1, 2, 1, 2, 5, 1, 2, 1, 2, 5, 1, 2, 13), TABLE(13, 1, 3, 1, 1, 8, 1, 3, 1, 1, 3, 1, 1));
    measured(order);
}
