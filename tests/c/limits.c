/* What the header says of types and limits: the layout of its two structs, its number, the longest inputs that are accepted, and the rows
 * that it calls always enough, under each order. What is refused is left to refusals.c. */
#include "orders.h"
#include "tests.h"

#include <stdlib.h>
#include <string.h>

#define N LYNDON_MAX_PATTERN

void test_header(void) {
    part("the limits, the structs and the number of the header");
    check(LYNDON_MAX_PATTERN == 16384 && LYNDON_MAX_BLOCK == 256 && LYNDON_MAX_TREE == 256 && LYNDON_MAX_WANTED == 256,
          "the limits");
    check(LYNDON_ORDER == 256 && LYNDON_NOT_AN_ORDER == 13, "an order");
    check(LYNDON_INTERFACE == 1 && tells_interface(LYNDON_INTERFACE), "the interface's number");
    check(LYNDON_MAX_LISTING == 327712 && LYNDON_MAX_DEFINITE_BLOCK == 16391 && LYNDON_MAX_MIDDLE == 272, "the rows that follow");
    check(sizeof(lyndon_group) == 6, "the size of a group");
    check(offsetof(lyndon_group, start) == 0 && offsetof(lyndon_group, length) == 2 && offsetof(lyndon_group, power) == 4, "a group");
    check(sizeof(lyndon_edit_answer) == 48 && offsetof(lyndon_edit_answer, refusal) == 0, "the size of an answer");
    check(offsetof(lyndon_edit_answer, kept) == 8 && offsetof(lyndon_edit_answer, resume) == 16 &&
              offsetof(lyndon_edit_answer, groups) == 24 && offsetof(lyndon_edit_answer, length) == 32 &&
              offsetof(lyndon_edit_answer, starts) == 40,
          "an answer");
}

/* Of a and b the smaller and the larger letter. */
typedef struct {
    uint8_t low, high;
} letters;

static letters letters_of(const ranking *o) {
    return o->ranks.at['a'] < o->ranks.at['b'] ? (letters){ 'a', 'b' } : (letters){ 'b', 'a' };
}

/* A pattern of equal letters is one group, and each of its places starts a longest word. */
static void equal_letters(const ranking *o) {
    static uint8_t pattern[N];
    static uint16_t ones[N], places[N];
    static const uint16_t group[] = { 0, 1, N };
    const char text[] = "start,length,power,word,shared\r\n0,1,16384,61,0\r\n";
    memset(pattern, 'a', N);
    for (size_t k = 0; k < N; k++) {
        ones[k] = 1;
        places[k] = (uint16_t)k;
    }
    bytes w = { pattern, N }, order = o->ranks;
    const struct {
        filling call;
        told want;
        result r;
    } cases[] = {
        { FACTOR, { 0, { 1, 0 } }, { group, 3 } },        { ARRAY, { 0, { N, 0 } }, { ones, N } },
        { LAST_FACTORS, { 0, { N, 0 } }, { ones, N } },   { LONGEST_WORDS, { 0, { 1, N } }, { places, N } },
        { LISTING, { 0, { sizeof text - 1, 0 } }, { text, sizeof text - 1 } },
    };
    for (size_t k = 0; k < sizeof cases / sizeof *cases; k++) {
        bool good = fills_any_row(cases[k].call, w, order, cases[k].want, cases[k].r);
        check(good, "%s of the longest, %s", filling_name[cases[k].call], o->name);
    }
    check(tells_longest_word(w, order, 0, 1), "lyndon_longest_word of the longest, %s", o->name);
    check(tells_lyndon(w, order, 0, false), "lyndon_is_lyndon of the longest, %s", o->name);
    table t = { ones, N };
    for (side s = PREFIX; s <= SUFFIX; s++) {
        bool good = takes_part(s, w, order, t, s == PREFIX ? N : 0, 3, (told){ 0, { 1, 0 } }, (result){ group, 3 });
        check(good, "%s of the longest, %s", side_name[s], o->name);
    }
    /* the first 256 letters replaced by the same: nothing kept, one middle group */
    static const uint16_t middle[] = { 0, 1, LYNDON_MAX_BLOCK };
    given g = { w, order, t, t, 0, LYNDON_MAX_BLOCK, { pattern, LYNDON_MAX_BLOCK } };
    lyndon_edit_answer told = { .kept = 0, .resume = LYNDON_MAX_BLOCK, .groups = 1, .length = 1, .starts = N };
    edited want = { told, middle, places };
    check(answers_edit(&g, 1, N, &want), "lyndon_edit of the longest, %s", o->name);
}

/* All letters but the first are equal, so the least rotation starts behind it. */
static void longest_rotation(const ranking *o) {
    static uint8_t pattern[N];
    letters l = letters_of(o);
    memset(pattern, l.low, N);
    pattern[0] = l.high;
    check(tells_rotation((bytes){ pattern, N }, o->ranks, 0, 1), "lyndon_least_rotation of the longest, %s", o->name);
}

/* With a the smaller letter: a .. ab is a Lyndon word; the longest in ba .. ab is all but its first letter, and in b .. bab its last two. */
static void longest_word(const ranking *o) {
    static uint8_t pattern[N];
    letters l = letters_of(o);
    bytes w = { pattern, N };
    memset(pattern, l.low, N);
    pattern[N - 1] = l.high;
    check(tells_longest_word(w, o->ranks, 0, N), "lyndon_longest_word, all of the longest, %s", o->name);
    pattern[0] = l.high;
    check(tells_longest_word(w, o->ranks, 1, N - 1), "lyndon_longest_word, all of the longest but a letter, %s", o->name);
    memset(pattern, l.high, N - 2);
    check(tells_longest_word(w, o->ranks, N - 2, 2), "lyndon_longest_word, the end of the longest, %s", o->name);
}

/* A block of the longest pattern fits the row that always is enough, and is read again; so is one with all nine digits. */
static void longest_block(void) {
    static uint8_t block[LYNDON_MAX_DEFINITE_BLOCK + 4];
    memset(block, '\n', sizeof block);
    memcpy(block, "#516384", 7);
    bytes w = { block + 7, N };
    told want = { 0, { LYNDON_MAX_DEFINITE_BLOCK, 0 } };
    check(fills_any_row(BLOCK, w, NO_ORDER, want, (result){ block, LYNDON_MAX_DEFINITE_BLOCK }), "lyndon_write_block of the longest");
    check(reads_block((bytes){ block, LYNDON_MAX_DEFINITE_BLOCK }, (told){ 0, { 7, N } }), "lyndon_read_block of the longest");
    check(reads_block((bytes){ block, LYNDON_MAX_DEFINITE_BLOCK + 1 }, (told){ 0, { 7, N } }), "lyndon_read_block of the longest, a line feed");
    memcpy(block, "#9000016384", 11);
    check(reads_block((bytes){ block, sizeof block }, (told){ 0, { 11, N } }), "lyndon_read_block of the longest, nine digits");
}

/* With a the smaller letter: a .. ab is a Lyndon word; its tree goes down at the right: node 2k holds the letters from k on, each but the last
 * after a leaf. */
static void longest_tree(const ranking *o) {
    enum { SIZE = LYNDON_MAX_TREE };
    static uint8_t word[SIZE];
    static uint16_t nodes[4 * SIZE];
    letters l = letters_of(o);
    memset(word, l.low, SIZE);
    word[SIZE - 1] = l.high;
    for (size_t k = 0; k < SIZE; k++) {
        nodes[4 * k] = (uint16_t)k;
        nodes[4 * k + 1] = (uint16_t)(SIZE - k);
        nodes[4 * k + 2] = (uint16_t)k;
        nodes[4 * k + 3] = 1;
    }
    bytes w = { word, SIZE };
    bool good = fills_any_row(TREE, w, o->ranks, (told){ 0, { 2 * SIZE - 1, 0 } }, (result){ nodes, 4 * SIZE - 2 });
    check(good, "lyndon_tree of 256, %s", o->name);
}

/* Falling ranks: each byte is a group of its own, 256 of them from one block. */
static void most_groups(const ranking *o) {
    static uint8_t block[LYNDON_MAX_BLOCK];
    static uint16_t middle[3 * LYNDON_MAX_BLOCK], starts[LYNDON_MAX_BLOCK];
    for (size_t k = 0; k < LYNDON_MAX_BLOCK; k++) {
        block[k] = byte_of(o->ranks, 255 - k);
        middle[3 * k] = starts[k] = (uint16_t)k;
        middle[3 * k + 1] = middle[3 * k + 2] = 1;
    }
    given g = { { block, 0 }, o->ranks, { starts, 0 }, { starts, 0 }, 0, 0, { block, LYNDON_MAX_BLOCK } };
    lyndon_edit_answer told = { .groups = LYNDON_MAX_BLOCK, .length = 1, .starts = LYNDON_MAX_BLOCK };
    edited want = { told, middle, starts };
    check(answers_edit(&g, LYNDON_MAX_BLOCK, LYNDON_MAX_BLOCK, &want), "lyndon_edit with 256 groups, exact rows, %s", o->name);
    check(answers_edit(&g, LYNDON_MAX_MIDDLE, LYNDON_MAX_BLOCK, &want), "lyndon_edit, LYNDON_MAX_MIDDLE, %s", o->name);
}

/* The listing fits the row that always is enough, and no row shorter than it counts. */
static void long_listing(const ranking *o, const uint8_t *pattern, size_t groups) {
    static uint8_t text[LYNDON_MAX_LISTING], again[LYNDON_MAX_LISTING];
    size_t count = 0, lines = 0;
    uint8_t refusal = lyndon_write_listing(pattern, N, o->ranks.at, o->ranks.n, text, LYNDON_MAX_LISTING, &count);
    for (size_t k = 0; k < count; k++) lines += text[k] == '\n';
    check(refusal == 0 && lines == groups + 1, "a listing of %zu groups has %zu lines, %s", groups, lines, o->name);
    size_t size = count;
    refusal = lyndon_write_listing(pattern, N, o->ranks.at, o->ranks.n, again, size, &count);
    check(refusal == 0 && count == size && memcmp(text, again, size) == 0, "a listing of %zu groups, exact row, %s", groups, o->name);
    refusal = lyndon_write_listing(pattern, N, o->ranks.at, o->ranks.n, again, size > 0 ? size - 1 : 0, &count);
    check(refusal == 8 && count == 0, "a listing of %zu groups, a byte too few, %s", groups, o->name);
}

/* By ranks: 256 falling letters, equally many of each; and the Lyndon words of one and two of the 128 highest letters, falling: 16,384 bytes. */
static void longest_listings(const ranking *o) {
    static uint8_t pattern[N];
    for (size_t k = 0; k < N; k++) pattern[k] = byte_of(o->ranks, 255 - k / (N / 256));
    long_listing(o, pattern, 256);
    size_t n = 0, groups = 0;
    for (size_t a = 255; a >= 128; a--, groups++) {
        for (size_t b = 255; b > a; b--, groups++) {
            pattern[n++] = byte_of(o->ranks, a);
            pattern[n++] = byte_of(o->ranks, b);
        }
        pattern[n++] = byte_of(o->ranks, a);
    }
    check(n == N, "the falling words have %zu bytes", n);
    long_listing(o, pattern, groups);
}

void test_limits(void) {
    part("the longest inputs, and rows that are always enough, under each order");
    for (size_t k = 0; k < ORDERS; k++) {
        equal_letters(&orders[k]);
        longest_rotation(&orders[k]);
        longest_word(&orders[k]);
        longest_tree(&orders[k]);
        most_groups(&orders[k]);
        longest_listings(&orders[k]);
    }
    longest_block();
}
