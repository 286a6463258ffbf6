/* Runs the calls in byte order on the cases of the papers, their published examples, wanted tables, comparisons, edits, and blocks. What a call
 * refuses, but for edits and blocks, is left to refusals, and other orders of symbols to other_orders. */
#include "groups.h"

int main(void) {
    uint8_t space[LYNDON_ORDER];
    bytes order = byte_order(space);
    run_sheet(order);
    run_sources(order);
    run_wanted(order);
    run_comparisons(order);
    run_edits(order);
    run_blocks();
    return 0;
}
