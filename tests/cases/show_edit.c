/* Makes an edit and prints what is given and answered, as show.h says. The middle groups are lent as records and printed as numbers, three
 * each. */
#include "lend.h"
#include "print.h"
#include "show.h"

#include <stdbool.h>

#define SLICE(s) (s).at, (s).n

/* A refusal is printed without the numbers, which must be 0 beside it. */
static void print_answer(lyndon_edit_answer a) {
    bool numbers = a.kept != 0 || a.resume != 0 || a.groups != 0 || a.length != 0 || a.starts != 0;
    print_text(":");
    if (a.refusal != 0) print_number("refusal", a.refusal);
    if (a.refusal != 0 && !numbers) return;
    print_number("kept", a.kept);
    print_number("resume", a.resume);
    print_number("groups", a.groups);
    print_number("length", a.length);
    print_number("starts", a.starts);
}

void show_edit_with(bytes pattern, bytes order, table array, table last_factors, size_t from, size_t to, bytes block, size_t groups,
                    size_t places) {
    print_text("edit");
    print_word(pattern);
    print_order(order);
    print_number("from", from);
    print_number("to", to);
    print_text(" block");
    print_word(block);
    lyndon_group *middle = lend_groups(groups);
    uint16_t *starts = lend_numbers(places);
    print_answer(lyndon_edit(SLICE(pattern), SLICE(order), SLICE(array), SLICE(last_factors), from, to, SLICE(block), middle, groups, starts,
                             places));
    print_row("middle", left_groups(groups));
    print_row("places", left_numbers(places));
    print_text("\n");
}

void show_edit(bytes pattern, bytes order, size_t from, size_t to, bytes block, size_t groups, size_t places) {
    table array = array_of(pattern, order, LYNDON_MAX_PATTERN);
    table last_factors = last_factors_of(pattern, order, LYNDON_MAX_PATTERN);
    show_edit_with(pattern, order, array, last_factors, from, to, block, groups, places);
}
