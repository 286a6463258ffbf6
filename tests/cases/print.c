/* Prints headings, words, rows and orders, as print.h says. What is longer than 70 elements is told by its length and a digest: from 0 on,
 * each element is added to 31 times the number so far, modulo 65,521. */
#include "print.h"

#include <stdbool.h>
#include <stdio.h>

/* A word or a row of up to so many elements is printed whole. */
#define WHOLE 70

void print_heading(const char *title) {
    printf("# %s\n", title);
}

void print_text(const char *s) {
    fputs(s, stdout);
}

void print_number(const char *name, size_t n) {
    printf(" %s %zu", name, n);
}

/* A byte as its letter, or as a backslash and two hexadecimal digits where it has none. */
static void print_byte(uint8_t b) {
    if (b > 32 && b < 127) {
        putchar(b);
    } else {
        printf("\\%02x", b);
    }
}

void print_word(bytes s) {
    putchar(' ');
    if (s.n == 0) {
        fputs("empty", stdout);
    } else if (s.n <= WHOLE) {
        for (size_t k = 0; k < s.n; k++) print_byte(s.at[k]);
    } else {
        printf("%zu bytes", s.n);
    }
}

/* One number for what is so far and one element more. */
static uint32_t digest(uint32_t so_far, uint16_t element) {
    return (so_far * 31 + element) % 65521;
}

void print_content(bytes s) {
    print_word(s);
    if (s.n <= WHOLE) return;
    uint32_t d = 0;
    for (size_t k = 0; k < s.n; k++) d = digest(d, s.at[k]);
    print_number("digest", d);
}

static bool is_byte_order(bytes order) {
    if (order.n != LYNDON_ORDER) return false;
    for (size_t b = 0; b < order.n; b++) {
        if (order.at[b] != b) return false;
    }
    return true;
}

void print_order(bytes order) {
    if (is_byte_order(order)) return;
    print_text(" order");
    print_content(order);
}

void print_row(const char *name, table row) {
    printf(" %s", name);
    if (row.n == 0) {
        print_text(" empty");
    } else if (row.n <= WHOLE) {
        for (size_t k = 0; k < row.n; k++) printf(" %u", (unsigned)row.at[k]);
    } else {
        uint32_t d = 0;
        for (size_t k = 0; k < row.n; k++) d = digest(d, row.at[k]);
        print_number("of", row.n);
        print_number("digest", d);
    }
}

void print_refusal(uint8_t refusal) {
    print_text(":");
    print_number("refusal", refusal);
}
