/* Refusal 2: positions 0 and n are accepted, n + 1 and the largest are not. Nothing comes before 0 or after n, so a row of 0 entries is enough
 * there. */
#include "groups.h"
#include "print.h"
#include "show.h"

static void prefixes(bytes s, bytes order, table t) {
    show_factor_prefix(s, order, t, 0, 0);
    show_factor_prefix(s, order, t, 13, 3);
    show_factor_prefix(s, order, t, 14, 3);
    show_factor_prefix(s, order, t, SIZE_MAX, 3);
}

static void suffixes(bytes s, bytes order, table t) {
    show_factor_suffix(s, order, t, 0, 3);
    show_factor_suffix(s, order, t, 12, 3);
    show_factor_suffix(s, order, t, 13, 0);
    show_factor_suffix(s, order, t, 14, 3);
    show_factor_suffix(s, order, t, SIZE_MAX, 3);
}

void run_positions(bytes order) {
    print_heading("positions: n is accepted, n + 1 and the largest are not");
    prefixes(BYTES("ababbababbabb"), order, TABLE(1, 2, 1, 2, 5, 1, 2, 1, 2, 5, 1, 2, 13));
    suffixes(BYTES("ababbababbabb"), order, TABLE(13, 1, 3, 1, 1, 8, 1, 3, 1, 1, 3, 1, 1));
}
