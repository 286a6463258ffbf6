/* Refusal 13, of every call that takes an order: no entries, 255 and 257, and one value twice. It comes before every other refusal. */
#include "groups.h"
#include "print.h"
#include "show.h"

/* Every call, with what it accepts in byte order. */
static void each(bytes s, bytes order, table array, table last) {
    show_factor(s, order, 3);
    show_array(s, order, 2);
    show_last_factors(s, order, 2);
    show_realise_array(array, order, 2);
    show_longest_words(s, order, 1);
    show_longest_word(s, order);
    show_longest_word_place(s, order);
    show_is_lyndon(s, order);
    show_least_rotation(s, order);
    show_tree(s, order, 6);
    show_compare(s, s, order);
    show_factor_prefix(s, order, last, 2, 3);
    show_factor_suffix(s, order, array, 0, 3);
    show_edit_with(s, order, array, last, 1, 1, s, 2, 2);
    show_write_listing(s, order, 46);
}

static void on(const char *heading, bytes order) {
    print_heading(heading);
    each(BYTES("ab"), order, TABLE(2, 1), TABLE(1, 2));
}

static void lengths(void) {
    uint8_t space[LYNDON_ORDER + 1] = { 0 };
    bytes order = byte_order(space);
    on("byte order: nothing is refused", order);
    on("no order: no entries", part(order, 0, 0));
    on("no order: 255 entries", part(order, 0, 255));
    on("no order: 257 entries", (bytes){ space, 257 });
}

/* 16,385 bytes, tables and rows of 0 entries, the largest position, 257 wanted entries of 0: all that a call refuses holds. */
static void all(bytes s, bytes order) {
    print_heading("refusals that hold: 13 and all others of the call");
    show_factor(s, order, 0);
    show_array(s, order, 0);
    show_last_factors(s, order, 0);
    show_realise_array(entries(0, 257), order, 0);
    show_longest_words(s, order, 0);
    show_longest_word(s, order);
    show_longest_word_place(s, order);
    show_is_lyndon(s, order);
    show_least_rotation(s, order);
    show_tree(s, order, 0);
    show_compare(s, s, order);
    show_factor_prefix(s, order, NO_ENTRIES, SIZE_MAX, 0);
    show_factor_suffix(s, order, NO_ENTRIES, SIZE_MAX, 0);
    show_edit_with(s, order, NO_ENTRIES, NO_ENTRIES, 2, 1, s, 0, 0);
    show_write_listing(s, order, 0);
}

static void parts(bytes s, bytes order, table t) {
    print_heading("refusals that hold: 13 2; 13 2; 13 5; 13 5; 13 8; 13 8");
    show_factor_prefix(s, order, t, 3, 3);
    show_factor_suffix(s, order, t, 3, 3);
    show_factor_prefix(s, order, NO_ENTRIES, 2, 3);
    show_factor_suffix(s, order, NO_ENTRIES, 2, 3);
    show_factor_prefix(s, order, t, 2, 2);
    show_factor_suffix(s, order, t, 0, 2);
}

/* Of one letter both tables are 1 .. 1. */
static void edits(bytes s, bytes order, table t) {
    print_heading("refusals that hold: 13 2; 13 3; 13 4; 13 5; 13 8");
    show_edit_with(s, order, t, t, 2, 1, BYTES("a"), 1, 16384);
    show_edit_with(s, order, t, t, 0, 16384, letters('a', 257), 1, 16384);
    show_edit_with(s, order, t, t, 0, 0, BYTES("a"), 1, 16384);
    show_edit_with(s, order, t, NO_ENTRIES, 0, 1, BYTES("a"), 1, 16384);
    show_edit_with(s, order, t, t, 0, 1, BYTES("a"), 1, 0);
}

static void others(bytes order) {
    print_heading("refusals that hold: 13 6 7; 13 7; 13 10; 13 11; 13 12; 13 8; 13 8; 13 8");
    show_tree(letters('a', 257), order, 1026);
    show_tree(BYTES("ba"), order, 6);
    show_least_rotation(BYTES("abab"), order);
    show_realise_array(entries(1, 257), order, 257);
    show_realise_array(TABLE(2, 2, 1), order, 3);
    show_realise_array(TABLE(1), order, 0);
    show_tree(BYTES("ab"), order, 5);
    show_write_listing(BYTES("ab"), order, 45);
}

static void first(bytes order) {
    all(letters('a', 16385), order);
    parts(BYTES("aa"), order, TABLE(1, 1));
    edits(letters('a', 16384), order, entries(1, 16384));
    others(order);
}

/* What scripts without an order of their own take for one. */
static void written(void) {
    print_heading("byte order written: a row of none, one short, exact, longer");
    show_byte_order(0);
    show_byte_order(255);
    show_byte_order(256);
    show_byte_order(257);
}

void run_no_order(void) {
    lengths();
    uint8_t ranks[LYNDON_ORDER];
    bytes order = byte_order(ranks);
    ranks[255] = 0;
    on("no order: 0 twice, first and last", order);
    ranks[255] = 255;
    ranks[16] = 17;
    on("no order: 17 twice, side by side", order);
    first(order);
    written();
}
