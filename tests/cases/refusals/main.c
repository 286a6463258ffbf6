/* Runs the calls but edits, listings and blocks in byte order where they refuse, and next to it: short rows, the empty pattern, positions, wrong
 * tables, repeated words, several refusals at once, the longest patterns, the longest strings compared, wanted tables. What is no order, refusal
 * 13, is left to other_orders. */
#include "groups.h"

int main(void) {
    uint8_t space[LYNDON_ORDER];
    bytes order = byte_order(space);
    run_short_rows(order);
    run_empty(order);
    run_positions(order);
    run_wrong_tables(order);
    run_repeated(order);
    run_several(order);
    run_limits(order);
    run_wanted(order);
    return 0;
}
