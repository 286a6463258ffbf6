/* Two strings compared: the shared length is that of the bytes, which is smaller is told by the ranks, and a beginning is smaller in every
 * order. One difference is behind more than sixteen equal bytes. */
#include "groups.h"
#include "show.h"

static void words(bytes order) {
    show_compare(BYTES("acb"), BYTES("abc"), order);
    show_compare(BYTES("abc"), BYTES("abac"), order);
    show_compare(BYTES("abba"), BYTES("abbb"), order);
    show_compare(BYTES("\x80\x00"), BYTES("\x7F\xFF"), order);
    show_compare(BYTES("aaaaaaaaaaaaaaaaaaabcaa"), BYTES("aaaaaaaaaaaaaaaaaaabbcc"), order);
}

static void beginnings(bytes order) {
    show_compare(BYTES(""), BYTES("a"), order);
    show_compare(BYTES("abab"), BYTES("abab"), order);
    show_compare(BYTES("ab"), BYTES("abab"), order);
    show_compare(BYTES("abab"), BYTES("ab"), order);
}

void run_comparisons(bytes order) {
    words(order);
    beginnings(order);
}
