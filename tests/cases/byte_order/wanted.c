/* Wanted reach tables that patterns have: those of the papers' worked examples, and the least ones. Which pattern is written is left free, so
 * what is printed of it is its reach table, which is the wanted one. */
#include "groups.h"
#include "print.h"
#include "show.h"

/* Those of `sources.c`: P10 and its reduction, P11. */
static void examples(bytes order) {
    print_heading("wanted tables: P10 and its reduction, P11");
    show_realise_array(TABLE(9, 1, 1, 6, 2, 1, 3, 1, 1), order, 9);
    show_realise_array(TABLE(6, 1, 4, 1, 2, 1), order, 6);
    show_realise_array(TABLE(13, 1, 3, 1, 1, 8, 1, 3, 1, 1, 3, 1, 1), order, 13);
}

/* All tables of up to three entries that patterns have: 1, 1, 2 and 5 of them. */
static void least(bytes order) {
    print_heading("all wanted tables of up to three entries that patterns have");
    show_realise_array(NO_ENTRIES, order, 0);
    show_realise_array(TABLE(1), order, 1);
    show_realise_array(TABLE(1, 1), order, 2);
    show_realise_array(TABLE(2, 1), order, 2);
    show_realise_array(TABLE(1, 1, 1), order, 3);
    show_realise_array(TABLE(1, 2, 1), order, 3);
    show_realise_array(TABLE(2, 1, 1), order, 3);
    show_realise_array(TABLE(3, 1, 1), order, 3);
    show_realise_array(TABLE(3, 2, 1), order, 3);
}

void run_wanted(bytes order) {
    examples(order);
    least(order);
}
