/* Calls every function of lyndon.h from C: worked examples, each refusal of each function, rows that must keep their entries, and every
 * short string, in byte order and others. The two arguments are cases that the script has counted. What is right at length is left to
 * tests/compare. */
#include "orders.h"
#include "tests.h"

#include <stdlib.h>

int main(int argc, char **argv) {
    if (argc == 3) counted(strtoul(argv[1], NULL, 10), strtoul(argv[2], NULL, 10));
    prepare_orders();
    test_header();
    test_example();
    test_no_order();
    test_refusals();
    test_limits();
    test_words();
    test_edits();
    test_random();
    test_blocks();
    test_wanted();
    test_compare();
    return finish();
}
