/* The answer to edits, with the tables under the order: those of the trainer's sheet, both ends, and words that begin alike. Tables of another
 * order are in tables.c. */
#include "groups.h"
#include "show.h"

/* P5 to P9. */
static void sheet(bytes s, bytes order) {
    show_edit(s, order, 5, 6, BYTES("b"), 2, 2);
    show_edit(s, order, 11, 11, BYTES("a"), 2, 2);
    show_edit(s, order, 9, 10, BYTES(""), 2, 2);
    show_edit(s, order, 1, 3, BYTES("bac"), 2, 2);
    show_edit(s, order, 7, 10, BYTES(""), 2, 2);
}

static void ends(bytes s, bytes order) {
    show_edit(s, order, 0, 0, BYTES("b"), 2, 2);
    show_edit(s, order, 13, 13, BYTES("c"), 2, 2);
    show_edit(s, order, 0, 13, BYTES(""), 0, 0);
}

/* P12 and P13. */
static void short_patterns(bytes order) {
    show_edit(BYTES("aa"), order, 1, 1, BYTES("a"), 1, 3);
    show_edit(BYTES("aba"), order, 3, 3, BYTES("c"), 1, 2);
}

/* A first difference after more than sixteen equal bytes. */
static void far(bytes s, bytes order) {
    show_edit(s, order, 39, 40, BYTES("c"), 1, 2);
    show_edit(s, order, 19, 20, BYTES("c"), 1, 2);
}

void run_edits(bytes order) {
    sheet(BYTES("acbabcabcabac"), order);
    ends(BYTES("acbabcabcabac"), order);
    short_patterns(order);
    far(BYTES("aaaaaaaaaaaaaaaaaaabaaaaaaaaaaaaaaaaaaab"), order);
}
