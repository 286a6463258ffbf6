/* Two strings compared: neighbouring words of a listing, the same string, one that the other begins with, and a first difference at the first
 * byte, in the middle and at the last. The longest strings are left to refusals. */
#include "groups.h"
#include "print.h"
#include "show.h"

/* The words of acbabcabcabac, in their order. */
static void words(bytes order) {
    print_heading("compared: the words of acbabcabcabac, each with the next");
    show_compare(BYTES("acb"), BYTES("abc"), order);
    show_compare(BYTES("abc"), BYTES("abac"), order);
}

static void beginnings(bytes order) {
    print_heading("compared: the same string, and a beginning of the other");
    show_compare(BYTES(""), BYTES(""), order);
    show_compare(BYTES(""), BYTES("a"), order);
    show_compare(BYTES("a"), BYTES(""), order);
    show_compare(BYTES("abab"), BYTES("abab"), order);
    show_compare(BYTES("ab"), BYTES("abab"), order);
    show_compare(BYTES("abab"), BYTES("ab"), order);
}

static void differences(bytes order) {
    print_heading("compared: the first difference at the first byte, in the middle, at the last byte; bytes are unsigned");
    show_compare(BYTES("baaa"), BYTES("aaaa"), order);
    show_compare(BYTES("abaa"), BYTES("abba"), order);
    show_compare(BYTES("abbb"), BYTES("abba"), order);
    show_compare(BYTES("b"), BYTES("abba"), order);
    show_compare(BYTES("\x00\x7F"), BYTES("\x00\x80"), order);
    show_compare(BYTES("\x80\x00"), BYTES("\x7F\xFF"), order);
}

void run_comparisons(bytes order) {
    words(order);
    beginnings(order);
    differences(order);
}
