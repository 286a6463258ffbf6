/* Factors, tables, longest words and mark of a pattern, and the tree of a word. Rows are long enough for the result, but where 8 is asked for. */
#include "groups.h"
#include "show.h"

static void each(bytes s, bytes order, size_t room) {
    show_factor(s, order, room);
    show_array(s, order, s.n);
    show_last_factors(s, order, s.n);
    show_longest_words(s, order, room);
    show_longest_word(s, order);
    show_longest_word_place(s, order);
    show_is_lyndon(s, order);
    show_least_rotation(s, order);
}

/* The trap about signed bytes is about ranks: in each of these orders 80 7F is one Lyndon word, and 7F 80 is two. */
static void short_patterns(bytes order) {
    each(BYTES(""), order, 2);
    each(BYTES("aa"), order, 3);
    each(BYTES("baab"), order, 6);
    each(BYTES("\x7F\x80"), order, 6);
    each(BYTES("\x80\x7F"), order, 6);
}

/* Refusal 8 is about the result under the order: these rows and this buffer are long enough for the one word of byte order. */
static void measured(bytes order) {
    show_factor(BYTES("\x7F\x80"), order, 3);
    show_longest_words(BYTES("\x7F\x80"), order, 1);
    show_write_listing(BYTES("\x7F\x80"), order, 46);
}

/* P4, P10 and P11. */
static void sheet(bytes order) {
    each(BYTES("acbabcabcabac"), order, 12);
    each(BYTES("\x00\x01\x01\x00\x02\x03\x01\x02\x02"), order, 12);
    each(BYTES("ababbababbabb"), order, 15);
}

/* A word that begins with b and grows or ends by more than sixteen bytes c, words that differ only behind so many equal bytes, and all words of
 * six letters. */
static void long_patterns(bytes order) {
    each(BYTES("baaaaaaaacccccccccccccccccc"), order, 6);
    each(BYTES("aaaaaaaaaaaaaaaaaaabaaaaaaaaaaaaaaaaaaacaaaaaaaaaaaaaaaaaaab"), order, 9);
    each(BYTES("aaaaaabaaaabbaaababaaabbbaabaababbaabbabaabbbbabababbbabbabbbbbbaaaaa"), order, 18);
}

/* P14 with its letters changed too: it is a Lyndon word where b is before a. */
static void trees(bytes order) {
    show_tree(BYTES("aabab"), order, 18);
    show_tree(BYTES("bbaba"), order, 18);
    show_tree(BYTES("cbcabcaa"), order, 30);
    show_tree(BYTES("bcbaca"), order, 22);
    show_tree(BYTES("acabcb"), order, 22);
}

void run_patterns(bytes order) {
    short_patterns(order);
    measured(order);
    sheet(order);
    long_patterns(order);
    trees(order);
}
