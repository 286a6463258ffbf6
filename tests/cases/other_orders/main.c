/* Runs the calls under other symbol orders than byte order: the reverse order, one that moves a few symbols, and one that mixes all; then what is
 * no order, refusal 13, for each call and beside each other refusal. An order is told by its digest. */
#include "groups.h"
#include "orders.h"
#include "print.h"

static void run(const char *name, bytes order) {
    print_heading(name);
    run_patterns(order);
    run_parts(order);
    run_comparisons(order);
    run_edits(order);
    run_tables(order);
}

int main(void) {
    uint8_t space[LYNDON_ORDER];
    run("the reverse order: the rank of byte b is 255 - b", stepping(space, 255, 255));
    run("byte order, but b before c before a, and 80 before 7F", moved(space));
    run("all mixed: the rank of byte b is 13 + 167 b, modulo 256", stepping(space, 13, 167));
    run_no_order();
    return 0;
}
