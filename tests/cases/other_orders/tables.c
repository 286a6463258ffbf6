/* Refusal 5: tables that are right under one order and wrong under another. Of one letter the tables are the same in all. */
#include "groups.h"
#include "orders.h"
#include "show.h"

/* Both tables given are those of byte order: both together, and each beside a right one. */
static void edits(bytes s, bytes order, table array, table last) {
    show_edit_with(s, order, array, last, 5, 6, BYTES("b"), 1, 1);
    show_edit_with(s, order, array_of(s, order, 13), last, 5, 6, BYTES("b"), 1, 1);
    show_edit_with(s, order, array, last_factors_of(s, order, 13), 5, 6, BYTES("b"), 1, 1);
}

/* The tables under one order, lent to questions under another. */
static void lent(bytes s, bytes of, bytes order) {
    show_factor_prefix(s, order, last_factors_of(s, of, s.n), s.n, 3);
    show_factor_suffix(s, order, array_of(s, of, s.n), 0, 3);
}

/* Where b comes first this is one word, which grows by sixteen bytes. */
static void grown(bytes s, bytes order) {
    uint8_t space[LYNDON_ORDER];
    lent(s, moved(space), order);
}

void run_tables(bytes order) {
    edits(BYTES("acbabcabcabac"), order, TABLE(3, 1, 1, 3, 2, 1, 3, 2, 1, 4, 1, 2, 1), TABLE(1, 2, 3, 1, 2, 3, 1, 2, 3, 1, 2, 1, 4));
    uint8_t space[LYNDON_ORDER];
    bytes other = byte_order(space);
    lent(BYTES("acbabcabcabac"), other, order);
    lent(BYTES("acbabcabcabac"), order, other);
    /* one letter has the same tables in every order */
    lent(BYTES("aaa"), other, order);
    grown(BYTES("baaaaaaaacccccccccccccccc"), order);
}
