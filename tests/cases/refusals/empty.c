/* The empty pattern, P1: no factors, longest 0, mark 0. Empty tables and rows are long enough for it, and longer ones are left as they were. */
#include "groups.h"
#include "print.h"
#include "show.h"

static void answers(bytes s, bytes order) {
    show_longest_word(s, order);
    show_is_lyndon(s, order);
    show_least_rotation(s, order);
}

static void fills(bytes s, bytes order, size_t room) {
    show_factor(s, order, room);
    show_array(s, order, room);
    show_last_factors(s, order, room);
    show_longest_words(s, order, room);
    show_tree(s, order, room);
}

static void parts(bytes s, bytes order, table t, size_t room) {
    show_factor_prefix(s, order, t, 0, room);
    show_factor_suffix(s, order, t, 0, room);
    show_factor_prefix(s, order, t, 1, room);
    show_factor_suffix(s, order, t, 1, room);
}

void run_empty(bytes order) {
    print_heading("the empty pattern (P1)");
    answers(BYTES(""), order);
    fills(BYTES(""), order, 0);
    fills(BYTES(""), order, 2);
    parts(BYTES(""), order, NO_ENTRIES, 0);
    parts(BYTES(""), order, TABLE(OLD, OLD), 2);
}
