/* Measures the stack that each function of lyndon.h touches, over strings of eleven families in byte order and the reverse, prints a table, and
 * holds each to a bound. What the functions answer is left to the other tests; the two programs are left to programs.py. */
#include "families.h"
#include "painted.h"

#include "lyndon.h"

#include <stdbool.h>
#include <stdio.h>
#include <stdlib.h>

#define N LYNDON_MAX_PATTERN
#define SMALL 64

/* What a run is given and where its results go; static, so that only the call is on the stack. */
static struct {
    uint8_t order[LYNDON_ORDER], ranks[LYNDON_ORDER];
    uint8_t pattern[N], block[LYNDON_MAX_BLOCK], text[LYNDON_MAX_LISTING], definite[LYNDON_MAX_DEFINITE_BLOCK];
    uint16_t array[N], last[N], row[3 * N], starts[N];
    lyndon_group middle[LYNDON_MAX_MIDDLE];
    size_t n, block_n, definite_n, from, to, size, count;
    bool yes;
    uint8_t refusal, smaller;
    lyndon_edit_answer answer;
} g;

/* The order's two arguments, and those of the pattern under it. */
#define ORDER g.order, LYNDON_ORDER
#define PATTERN g.pattern, g.n, ORDER

static void run_interface(void) {
    g.refusal = lyndon_interface() != LYNDON_INTERFACE;
}

static void run_edit_interface(void) {
    g.refusal = lyndon_edit_interface() != LYNDON_INTERFACE;
}

static void run_byte_order(void) {
    g.refusal = lyndon_byte_order(g.ranks, LYNDON_ORDER, &g.count);
}

static void run_factor(void) {
    g.refusal = lyndon_factor(PATTERN, g.row, 3 * N, &g.count);
}

static void run_array(void) {
    g.refusal = lyndon_array(PATTERN, g.row, N, &g.count);
}

static void run_last_factors(void) {
    g.refusal = lyndon_last_factors(PATTERN, g.row, N, &g.count);
}

static void run_realise_array(void) {
    g.refusal = lyndon_realise_array(g.array, g.n, ORDER, g.text, LYNDON_MAX_WANTED, &g.count);
}

static void run_longest_words(void) {
    g.refusal = lyndon_longest_words(PATTERN, g.row, N, &g.size, &g.count);
}

/* It has no number; no pattern here is empty, so where no word is told the pattern was too long. */
static void run_longest_word(void) {
    lyndon_longest_word(PATTERN, &g.count, &g.size);
    g.refusal = g.size > 0 ? LYNDON_ACCEPTED : LYNDON_PATTERN_TOO_LONG;
}

static void run_is_lyndon(void) {
    g.refusal = lyndon_is_lyndon(PATTERN, &g.yes);
}

static void run_least_rotation(void) {
    g.refusal = lyndon_least_rotation(PATTERN, &g.count);
    if (g.refusal == LYNDON_REPEATED) g.refusal = 0;
}

static void run_tree(void) {
    g.refusal = lyndon_tree(PATTERN, g.row, 3 * N, &g.count);
    if (g.refusal == LYNDON_NOT_LYNDON) g.refusal = 0;
}

static void run_prefix(void) {
    g.refusal = lyndon_factor_prefix(PATTERN, g.last, g.n, g.row, 3 * N, g.to, &g.count);
}

static void run_suffix(void) {
    g.refusal = lyndon_factor_suffix(PATTERN, g.array, g.n, g.row, 3 * N, g.from, &g.count);
}

/* With itself, where the stretch starts at the front; with its second half, its last quarter and the empty string. */
static void run_compare(void) {
    g.refusal = lyndon_compare(g.pattern, g.n, g.pattern + g.from, g.n - g.from, ORDER, &g.size, &g.smaller);
}

static void run_listing(void) {
    g.refusal = lyndon_write_listing(PATTERN, g.text, LYNDON_MAX_LISTING, &g.count);
}

static void run_read_block(void) {
    g.refusal = lyndon_read_block(g.definite, g.definite_n, &g.size, &g.count);
}

static void run_write_block(void) {
    g.refusal = lyndon_write_block(g.pattern, g.n, g.text, LYNDON_MAX_DEFINITE_BLOCK, &g.count);
}

static void run_edit(void) {
    g.answer = lyndon_edit(PATTERN, g.array, g.n, g.last, g.n, g.from, g.to, g.block, g.block_n, g.middle, LYNDON_MAX_MIDDLE,
                           g.starts, N);
    g.refusal = g.answer.refusal;
}

/* A function: the longest string, the most bytes that it may touch, and the most that the longest string may add to those of a short one.
 * Only the tree calls itself: at most once for each letter, with up to 176 bytes. A reach table, made or tested, has room for a memo of 2,048
 * bytes, and an edit for a copy of the edited pattern. */
typedef struct {
    const char *name;
    void (*run)(void);
    size_t longest, most, growth;
} row;

static const row rows[] = {
    { "lyndon_interface", run_interface, N, 1024, 0 },
    { "lyndon_edit_interface", run_edit_interface, N, 1024, 0 },
    { "lyndon_byte_order", run_byte_order, N, 1024, 0 },
    { "lyndon_factor", run_factor, N, 1024, 0 },
    { "lyndon_array", run_array, N, 3072, 128 },
    { "lyndon_last_factors", run_last_factors, N, 1024, 0 },
    { "lyndon_realise_array", run_realise_array, LYNDON_MAX_WANTED, 1024, 0 },
    { "lyndon_longest_words", run_longest_words, N, 1024, 0 },
    { "lyndon_longest_word", run_longest_word, N, 1024, 0 },
    { "lyndon_is_lyndon", run_is_lyndon, N, 1024, 0 },
    { "lyndon_least_rotation", run_least_rotation, N, 1024, 0 },
    { "lyndon_tree", run_tree, LYNDON_MAX_TREE, 57344, 43008 },
    { "lyndon_factor_prefix", run_prefix, N, 1024, 0 },
    { "lyndon_factor_suffix", run_suffix, N, 3072, 128 },
    { "lyndon_compare", run_compare, N, 1024, 0 },
    { "lyndon_write_listing", run_listing, N, 1024, 0 },
    { "lyndon_read_block", run_read_block, N, 1024, 0 },
    { "lyndon_write_block", run_write_block, N, 1024, 0 },
    { "lyndon_edit", run_edit, N, 24576, 0 },
};

/* Stretch and block: the pattern's middle, its front, its end and all of it; none, one and 256 bytes, as many of them as fit. */
static void stretch(size_t which) {
    size_t n = g.n, quarter = n / 4;
    const size_t from[] = { n / 2, 0, n - quarter, 0, n }, to[] = { n / 2 + quarter, quarter, n, n, n };
    const size_t block[] = { LYNDON_MAX_BLOCK, 0, 1, LYNDON_MAX_BLOCK, 0 };
    g.from = from[which];
    g.to = to[which];
    g.block_n = block[which];
}

/* A call that was to be accepted counts as one without a bound. */
static size_t refused(const row *r, size_t n, size_t which) {
    printf("WRONG: %s refused %zu bytes of family %zu by %u\n", r->name, n, which, g.refusal);
    return SIZE_MAX;
}

/* Byte order or the reverse. */
static void order(size_t which) {
    for (size_t k = 0; k < LYNDON_ORDER; k++) g.order[k] = (uint8_t)(which == 0 ? k : LYNDON_ORDER - 1 - k);
}

/* The string whose ranks are those of a family: in both orders entry r is the byte of rank r, too. */
static void spell(size_t which, uint8_t *at, size_t n) {
    family(which, at, n);
    for (size_t k = 0; k < n; k++) at[k] = g.order[at[k]];
}

/* The pattern with its tables and its definite length block. */
static void prepare(size_t which, size_t n) {
    spell(which, g.pattern, n);
    g.n = n;
    if (lyndon_array(PATTERN, g.array, N, &g.count) != 0 || lyndon_last_factors(PATTERN, g.last, N, &g.count) != 0) abort();
    if (lyndon_write_block(g.pattern, n, g.definite, LYNDON_MAX_DEFINITE_BLOCK, &g.definite_n) != 0) abort();
}

/* The deepest of both orders, all families and stretches for strings of n bytes. */
static size_t deepest(const row *r, size_t n) {
    size_t most = 0;
    for (size_t k = 0; k < 2 * FAMILIES; k++) {
        size_t which = k % FAMILIES;
        order(k / FAMILIES);
        prepare(which, n);
        for (size_t s = 0; s < 5; s++) {
            stretch(s);
            spell((which + s) % FAMILIES, g.block, LYNDON_MAX_BLOCK);
            size_t used = touched(r->run);
            if (g.refusal != 0) return refused(r, n, which);
            if (used > most) most = used;
        }
    }
    return most;
}

int main(void) {
    size_t passed = 0, failed = 0;
    printf("%-24s %8s %8s %8s\n", "stack in bytes", "n = 64", "longest", "bound");
    for (size_t k = 0; k < sizeof rows / sizeof *rows; k++) {
        const row *r = &rows[k];
        size_t small = deepest(r, SMALL), large = deepest(r, r->longest);
        bool bounded = large <= r->most && small <= r->most && large > 0, level = large <= r->growth || large - r->growth <= small;
        printf("%-24s %8zu %8zu %8zu%s%s\n", r->name, small, large, r->most, bounded ? "" : " TOO MUCH", level ? "" : " GROWS");
        passed += bounded + level;
        failed += !bounded + !level;
    }
    printf("%zu passed, %zu failed\n", passed, failed);
    return failed > 0;
}
