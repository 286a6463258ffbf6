/* What the papers say of short patterns: the mark, Lyndon words, the order of bytes, those lines of the trainer's sheet that ask these calls, and
 * the trigger words of all words of six letters. The edits of the sheet are in edits.c. */
#include "groups.h"
#include "print.h"
#include "show.h"

/* `baab` has mark 1; `abab` is refused, with mark 0, and is no Lyndon word. */
static void marks(bytes order) {
    print_heading("marks");
    show_least_rotation(BYTES("baab"), order);
    show_least_rotation(BYTES("abab"), order);
    show_is_lyndon(BYTES("abab"), order);
}

/* Bytes compare as unsigned numbers: 7F 80 is one Lyndon word, 80 7F is two. */
static void unsigned_bytes(bytes order) {
    print_heading("unsigned bytes");
    show_factor(BYTES("\x7F\x80"), order, 6);
    show_factor(BYTES("\x80\x7F"), order, 6);
    show_is_lyndon(BYTES("\x7F\x80"), order);
    show_is_lyndon(BYTES("\x80\x7F"), order);
    show_least_rotation(BYTES("\x80\x7F"), order);
    show_array(BYTES("\x7F\x80\x7F"), order, 3);
    show_last_factors(BYTES("\x7F\x80\x7F"), order, 3);
}

static void short_patterns(bytes order) {
    print_heading("P2 and P3");
    show_factor(BYTES("a"), order, 3);
    show_longest_words(BYTES("a"), order, 2);
    show_is_lyndon(BYTES("a"), order);
    show_factor(BYTES("aa"), order, 3);
    show_is_lyndon(BYTES("aa"), order);
    show_longest_words(BYTES("aa"), order, 2);
    show_longest_word(BYTES("aa"), order);
}

/* P4, which is T of source 004's examples 4 and 15: "Since LF_T = acb, (abc)^2, abac, the longest Lyndon substring of T is abac." */
static void sheet(bytes order) {
    print_heading("P4");
    show_factor(BYTES("acbabcabcabac"), order, 9);
    show_longest_words(BYTES("acbabcabcabac"), order, 1);
    show_longest_word(BYTES("acbabcabcabac"), order);
    print_heading("P14");
    show_tree(BYTES("aabab"), order, 18);
    show_tree(BYTES("a"), order, 2);
}

/* The trigger words of the windows of six letters. */
static void windows(bytes word, bytes order) {
    for (size_t k = 0; k + 6 <= word.n; k++) show_longest_word(part(word, k, k + 6), order);
}

/* The windows of this word are all words of six letters a and b, each once. */
static void triggers(bytes order) {
    print_heading("trigger words of all words of six letters a and b");
    windows(BYTES("aaaaaabaaaabbaaababaaabbbaabaababbaabbabaabbbbabababbbabbabbbbbbaaaaa"), order);
}

void run_sheet(bytes order) {
    marks(order);
    unsigned_bytes(order);
    short_patterns(order);
    sheet(order);
    triggers(order);
}
