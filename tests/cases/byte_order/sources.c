/* The examples that the source documents print, as far as they ask these calls. The sources count positions from 1, the calls from 0. */
#include "groups.h"
#include "print.h"
#include "show.h"

/* Source 001, section 9.4, on x = 011023122 and its reduction 021534: "L'_x[1..9] = 9, 2, 3, 9, 6, 6, 9, 8, 9" and "L'_tau(x)[1..6] =
 * 6, 2, 6, 4, 6, 6", each the last place of the longest Lyndon substring at i, counted from 1. "L[i] = L'[i] - i + 1", so the Lyndon arrays are
 * 9 1 1 6 2 1 3 1 1, which is P10, and 6 1 4 1 2 1. */
static void source_001(bytes order) {
    print_heading("source 001, worked example (P10)");
    show_array(BYTES("\x00\x01\x01\x00\x02\x03\x01\x02\x02"), order, 9);
    show_array(BYTES("\x00\x02\x01\x05\x03\x04"), order, 6);
}

/* Source 004, section 1: "aab is a Lyndon word, but its cyclic rotations aba and baa are not." */
static void rotations(bytes order) {
    print_heading("source 004, section 1");
    show_is_lyndon(BYTES("aab"), order);
    show_is_lyndon(BYTES("aba"), order);
    show_is_lyndon(BYTES("baa"), order);
    show_least_rotation(BYTES("aba"), order);
    show_least_rotation(BYTES("baa"), order);
}

/* Source 004, figure 1, the Lyndon word ababbababbabb (P11): "any prefix w of a Lyndon word can be represented as w = x^k x'. For instance,
 * ababbababba = (ababb)^2 a. Thus, we store (|x|, k, |x'|) = (5, 2, 1) for this prefix". By lemma 10 the first group of a prefix is x^k, and the
 * others are the groups of x'. The figure's rows for the prefixes of 1 to 13 letters:
 *   |x|   1 2 2 2 5 5 5 5 5 5 5 5 13
 *   k     1 1 1 2 1 1 1 1 1 2 2 2 1
 *   |x'|  0 0 1 0 0 1 2 3 4 0 1 2 0 */
static void figure_1(bytes w, bytes order, table t) {
    print_heading("source 004, figure 1 (P11)");
    show_is_lyndon(w, order);
    show_last_factors(w, order, 13);
    show_array(w, order, 13);
    show_factor_prefix(w, order, t, 1, 3);
    show_factor_prefix(w, order, t, 2, 3);
    show_factor_prefix(w, order, t, 3, 6);
    show_factor_prefix(w, order, t, 4, 3);
    show_factor_prefix(w, order, t, 5, 3);
    show_factor_prefix(w, order, t, 6, 6);
    show_factor_prefix(w, order, t, 7, 6);
    show_factor_prefix(w, order, t, 8, 9);
    show_factor_prefix(w, order, t, 9, 6);
    show_factor_prefix(w, order, t, 10, 3);
    show_factor_prefix(w, order, t, 11, 6);
    show_factor_prefix(w, order, t, 12, 6);
    show_factor_prefix(w, order, t, 13, 3);
}

/* Source 004, figure 2: "the Lyndon tree of $abaababbababaaba and the path P_6 = w_1, .., w_10" from the root to the leaf of T[6]; of its nodes
 * w_1, w_2, w_4, w_5, w_8, w_9 the right child is not on it, and their right children, the last first, "= b, b, ab, ab, aab, a is the decomposed
 * Lyndon factorization of T[7..16]". */
static void figure_2(bytes t, bytes order) {
    print_heading("source 004, figure 2");
    show_tree(BYTES("$abaababbababaaba"), order, 66);
    show_array(t, order, 16);
    show_factor_suffix(t, order, array_of(t, order, 16), 6, 12);
}

/* Source 004, example 8: "Let LF_u = abb, (ab)^2, a and LF_v = bc, b, abababcb, ab, (a)^2. Then, the medial decomposed Lyndon factor is z =
 * abababcb [..] Thus, LF_uv = abb, (abababcb)^2, ab, (a)^2." u is the prefix of uv of 8 letters, v the suffix from there on. */
static void example_8(bytes uv, bytes order) {
    print_heading("source 004, example 8");
    show_factor(BYTES("abbababa"), order, 9);
    show_factor(BYTES("bcbabababcbabaa"), order, 15);
    show_factor(uv, order, 12);
    show_is_lyndon(BYTES("abababcb"), order);
    show_longest_words(uv, order, 2);
    show_longest_word(uv, order);
    show_factor_prefix(uv, order, last_factors_of(uv, order, 23), 8, 9);
    show_factor_suffix(uv, order, array_of(uv, order, 23), 8, 15);
}

void run_sources(bytes order) {
    source_001(order);
    rotations(order);
    figure_1(BYTES("ababbababbabb"), order, TABLE(1, 2, 1, 2, 5, 1, 2, 1, 2, 5, 1, 2, 13));
    figure_2(BYTES("abaababbababaaba"), order);
    example_8(BYTES("abbabababcbabababcbabaa"), order);
}
