/* Makes a call and prints what is given and answered, as show.h says; edits are in show_edit.c. A number that a call sets is preset to one that
 * none answers. */
#include "show.h"

#include "lend.h"
#include "print.h"

#include <stdbool.h>

#define UNSET ((size_t)0xDEADBEEF)

/* The arguments of a string or a table. */
#define SLICE(s) (s).at, (s).n

/* The call, the string that it is made on and the order. */
static void given(const char *name, bytes s, bytes order) {
    print_text(name);
    print_word(s);
    print_order(order);
}

/* The end of a line that is about a row, and of one that is about a buffer. */
static void filled(uint8_t refusal, size_t count, size_t room) {
    print_refusal(refusal);
    print_number("count", count);
    print_row("row", left_numbers(room));
    print_text("\n");
}

static void filled_buffer(uint8_t refusal, size_t count, size_t room) {
    print_refusal(refusal);
    print_number("count", count);
    print_text(" buffer");
    print_content(left_buffer(room));
    print_text("\n");
}

void show_byte_order(size_t room) {
    print_text("byte_order");
    size_t count = UNSET;
    uint8_t refusal = lyndon_byte_order(lend_buffer(room), room, &count);
    filled_buffer(refusal, count, room);
}

/* The four calls that fill a row of numbers and tell one. */
typedef uint8_t filling(const uint8_t *, size_t, const uint8_t *, size_t, uint16_t *, size_t, size_t *);

static void fill(const char *name, filling *call, bytes s, bytes order, size_t room) {
    given(name, s, order);
    size_t count = UNSET;
    uint8_t refusal = call(SLICE(s), SLICE(order), lend_numbers(room), room, &count);
    filled(refusal, count, room);
}

void show_factor(bytes pattern, bytes order, size_t room) {
    fill("factor", lyndon_factor, pattern, order, room);
}

void show_array(bytes pattern, bytes order, size_t room) {
    fill("lyndon_array", lyndon_array, pattern, order, room);
}

void show_last_factors(bytes pattern, bytes order, size_t room) {
    fill("last_factors", lyndon_last_factors, pattern, order, room);
}

void show_tree(bytes word, bytes order, size_t room) {
    fill("lyndon_tree", lyndon_tree, word, order, room);
}

void show_longest_words(bytes pattern, bytes order, size_t room) {
    given("longest_words", pattern, order);
    size_t size = UNSET, count = UNSET;
    uint8_t refusal = lyndon_longest_words(SLICE(pattern), SLICE(order), lend_numbers(room), room, &size, &count);
    print_refusal(refusal);
    print_number("length", size);
    print_number("count", count);
    print_row("row", left_numbers(room));
    print_text("\n");
}

void show_realise_array(table wanted, bytes order, size_t room) {
    print_text("realise_array");
    print_row("wanted", wanted);
    print_order(order);
    size_t count = UNSET;
    uint8_t refusal = lyndon_realise_array(SLICE(wanted), SLICE(order), lend_buffer(room), room, &count);
    print_refusal(refusal);
    print_number("count", count);
    bytes left = left_buffer(room);
    size_t written = count < room ? count : room;
    size_t entries_written = UNSET;
    lyndon_array(left.at, written, SLICE(order), lend_numbers(written), written, &entries_written);
    print_row("array", left_numbers(written));
    print_text(" behind");
    print_content(part(left, written, room));
    print_text("\n");
}

void show_longest_word(bytes pattern, bytes order) {
    given("longest_word", pattern, order);
    size_t start = UNSET, size = UNSET;
    lyndon_longest_word(SLICE(pattern), SLICE(order), &start, &size);
    print_text(": part");
    if (start <= pattern.n && size <= pattern.n - start) {
        print_word(part(pattern, start, start + size));
    } else {
        print_text(" that is not in the pattern");
    }
    print_text("\n");
}

void show_longest_word_place(bytes pattern, bytes order) {
    given("longest_word_place", pattern, order);
    size_t start = UNSET, size = UNSET;
    lyndon_longest_word(SLICE(pattern), SLICE(order), &start, &size);
    print_text(":");
    print_number("start", start);
    print_number("length", size);
    print_text("\n");
}

void show_is_lyndon(bytes word, bytes order) {
    given("is_lyndon", word, order);
    bool yes = true;
    uint8_t refusal = lyndon_is_lyndon(SLICE(word), SLICE(order), &yes);
    print_refusal(refusal);
    print_text(yes ? " yes\n" : " no\n");
}

void show_least_rotation(bytes pattern, bytes order) {
    given("least_rotation", pattern, order);
    size_t start = UNSET;
    uint8_t refusal = lyndon_least_rotation(SLICE(pattern), SLICE(order), &start);
    print_refusal(refusal);
    print_number("start", start);
    print_text("\n");
}

/* A refusal is printed without the numbers, which must be 0 beside it. */
void show_compare(bytes first, bytes second, bytes order) {
    print_text("compare");
    print_word(first);
    print_text(" with");
    print_word(second);
    print_order(order);
    size_t shared = UNSET;
    uint8_t smaller = 0xEE;
    uint8_t refusal = lyndon_compare(SLICE(first), SLICE(second), SLICE(order), &shared, &smaller);
    print_text(":");
    if (refusal != 0) print_number("refusal", refusal);
    if (refusal == 0 || shared != 0 || smaller != 0) {
        print_number("shared", shared);
        print_number("smaller", smaller);
    }
    print_text("\n");
}

void show_factor_prefix(bytes pattern, bytes order, table last_factors, size_t end, size_t room) {
    given("factor_prefix", pattern, order);
    print_row("table", last_factors);
    print_number("end", end);
    size_t count = UNSET;
    uint16_t *row = lend_numbers(room);
    uint8_t refusal = lyndon_factor_prefix(SLICE(pattern), SLICE(order), SLICE(last_factors), row, room, end, &count);
    filled(refusal, count, room);
}

void show_factor_suffix(bytes pattern, bytes order, table array, size_t start, size_t room) {
    given("factor_suffix", pattern, order);
    print_row("table", array);
    print_number("start", start);
    size_t count = UNSET;
    uint16_t *row = lend_numbers(room);
    uint8_t refusal = lyndon_factor_suffix(SLICE(pattern), SLICE(order), SLICE(array), row, room, start, &count);
    filled(refusal, count, room);
}

void show_write_listing(bytes pattern, bytes order, size_t room) {
    given("write_listing", pattern, order);
    size_t count = UNSET;
    uint8_t refusal = lyndon_write_listing(SLICE(pattern), SLICE(order), lend_buffer(room), room, &count);
    filled_buffer(refusal, count, room);
}

void show_read_block(bytes block) {
    print_text("read_block");
    print_content(block);
    size_t place = UNSET, count = UNSET;
    uint8_t refusal = lyndon_read_block(SLICE(block), &place, &count);
    print_refusal(refusal);
    print_number("place", place);
    print_number("count", count);
    print_text("\n");
}

void show_write_block(bytes pattern, size_t room) {
    print_text("write_block");
    print_word(pattern);
    size_t count = UNSET;
    uint8_t refusal = lyndon_write_block(SLICE(pattern), lend_buffer(room), room, &count);
    filled_buffer(refusal, count, room);
}
