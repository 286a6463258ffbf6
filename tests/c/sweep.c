/* Every string of two letters to length 8 and of three to length 5 through every function, every edit of shorter ones, under each order, and
 * strings without rule, each under an order of its own, held to the definitions in naive.c. Longer strings are left to tests/compare. */
#include "naive.h"
#include "orders.h"
#include "tests.h"

#include <string.h>

#define LONGEST_RANDOM 24

static bool fillings(bytes w, bytes order, const facts *f) {
    char text[(LONGEST_RANDOM + 1) * (2 * LONGEST_RANDOM + 30)];
    size_t size = naive_listing(w, f, text);
    bool good = fills_any_row(FACTOR, w, order, (told){ 0, { f->groups, 0 } }, (result){ f->group, 3 * f->groups });
    good = good && fills_any_row(ARRAY, w, order, (told){ 0, { w.n, 0 } }, (result){ f->array, w.n });
    good = good && fills_any_row(LAST_FACTORS, w, order, (told){ 0, { w.n, 0 } }, (result){ f->last, w.n });
    good = good && fills_any_row(LONGEST_WORDS, w, order, (told){ 0, { f->length, f->starts } }, (result){ f->start, f->starts });
    good = good && fills_any_row(LISTING, w, order, (told){ 0, { size, 0 } }, (result){ text, size });
    if (!f->lyndon) return good && fills(TREE, w, order, 4 * LONGEST_RANDOM, REFUSED(7), NOTHING);
    return good && fills_any_row(TREE, w, order, (told){ 0, { f->nodes, 0 } }, (result){ f->node, 2 * f->nodes });
}

static bool telling(bytes w, bytes order, const facts *f) {
    bool good = tells_lyndon(w, order, 0, f->lyndon);
    good = good && (f->repeated ? tells_rotation(w, order, 10, 0) : tells_rotation(w, order, 0, f->rotation));
    return good && tells_longest_word(w, order, f->starts > 0 ? f->start[0] : 0, f->length);
}

/* The groups of every prefix and every suffix, with exact rows and with none. */
static bool all_parts(bytes w, bytes order, const facts *f) {
    bool good = true;
    for (size_t k = 0; k <= w.n; k++) {
        for (side s = PREFIX; s <= SUFFIX; s++) {
            uint16_t group[3 * SHORT];
            bytes p = s == PREFIX ? (bytes){ w.at, k } : (bytes){ w.at + k, w.n - k };
            size_t count = naive_groups(p, order, s == PREFIX ? 0 : k, group);
            table t = { s == PREFIX ? f->last : f->array, w.n };
            good = good && takes_part(s, w, order, t, k, 3 * count, (told){ 0, { count, 0 } }, (result){ group, 3 * count });
            if (count > 0) good = good && takes_part(s, w, order, t, k, 3 * count - 1, REFUSED(8), NOTHING);
        }
    }
    return good && takes_part(PREFIX, w, order, (table){ f->last, w.n }, w.n + 1, 99, REFUSED(2), NOTHING) &&
           takes_part(SUFFIX, w, order, (table){ f->array, w.n }, w.n + 1, 99, REFUSED(2), NOTHING);
}

/* A table under another order is 5, unless it has the same entries. The empty prefix and suffix have no groups. */
static bool other_tables(bytes w, bytes order, const facts *f) {
    bool good = true;
    for (size_t k = 0; k < ORDERS; k++) {
        facts other = naive_facts(w, orders[k].ranks);
        bool last = memcmp(other.last, f->last, sizeof f->last) == 0, array = memcmp(other.array, f->array, sizeof f->array) == 0;
        good = good && takes_part(PREFIX, w, order, (table){ other.last, w.n }, 0, 0, REFUSED(last ? 0 : 5), NOTHING);
        good = good && takes_part(SUFFIX, w, order, (table){ other.array, w.n }, w.n, 0, REFUSED(array ? 0 : 5), NOTHING);
        given g = { w, order, { other.array, w.n }, { other.last, w.n }, 0, w.n, { w.at, 0 } };
        edited want = { .told = { .resume = w.n } };
        if (!last || !array) want.told = (lyndon_edit_answer){ .refusal = 5 };
        good = good && answers_edit(&g, 0, 0, &want);
    }
    return good;
}

static bool all_calls(bytes w, bytes order) {
    facts f = naive_facts(w, order);
    return fillings(w, order, &f) && telling(w, order, &f) && all_parts(w, order, &f) && other_tables(w, order, &f);
}

static void words_under(const ranking *o, size_t letters, size_t longest) {
    words all = every_word(letters, longest);
    for (bytes w; next_word(&all, &w);) {
        check(all_calls(w, o->ranks), "string %zu of %zu letters and length %zu, %s", all.number, letters, w.n, o->name);
    }
}

/* With exact rows, and with each row one too short or one longer. */
static bool one_edit(const given *g) {
    naive_edited e = naive_edit(g->pattern, g->order, g->from, g->to, g->block);
    edited want = { e.told, e.middle, e.start }, refused = { .told = { .refusal = 8 } };
    size_t m = e.told.groups, s = e.told.starts;
    bool good = answers_edit(g, m, s, &want) && answers_edit(g, m + 1, s, &want) && answers_edit(g, m, s + 1, &want);
    if (m > 0) good = good && answers_edit(g, m - 1, s, &refused);
    if (s > 0) good = good && answers_edit(g, m, s - 1, &refused);
    return good;
}

static bool all_edits(bytes w, bytes order, size_t letters, size_t longest_block) {
    facts f = naive_facts(w, order);
    for (size_t from = 0; from <= w.n; from++) {
        for (size_t to = from; to <= w.n; to++) {
            words blocks = every_word(letters, longest_block);
            given g = { w, order, { f.array, w.n }, { f.last, w.n }, from, to, { w.at, 0 } };
            while (next_word(&blocks, &g.block)) {
                if (!one_edit(&g)) return false;
            }
        }
    }
    return true;
}

static void edits_under(const ranking *o, size_t letters, size_t longest, size_t longest_block) {
    words all = every_word(letters, longest);
    for (bytes w; next_word(&all, &w);) {
        bool good = all_edits(w, o->ranks, letters, longest_block);
        check(good, "edits of string %zu of %zu letters and length %zu, %s", all.number, letters, w.n, o->name);
    }
}

/* A string, a block and an order without rule; every third time of two letters, of three and of all bytes. */
static void random_words(void) {
    chance c = 7;
    for (size_t k = 0; k < 300; k++) {
        uint8_t ranks[LYNDON_ORDER], at[LONGEST_RANDOM], block[8];
        static const size_t letters[] = { 2, 3, 256 };
        shuffle(&c, ranks);
        bytes order = { ranks, sizeof ranks }, w = random_word(&c, at, draw(&c, LONGEST_RANDOM + 1), letters[k % 3]);
        check(all_calls(w, order), "random string %zu of %zu bytes", k, w.n);
        facts f = naive_facts(w, order);
        given g = { w, order, { f.array, w.n }, { f.last, w.n }, draw(&c, w.n + 1), w.n, { block, 0 } };
        g.to = g.from + draw(&c, w.n - g.from + 1);
        g.block = random_word(&c, block, draw(&c, sizeof block + 1), letters[k % 3]);
        check(one_edit(&g), "random edit %zu of %zu bytes", k, w.n);
    }
}

/* Byte order with two neighbours exchanged, for each two, on a string of these two. */
static void nearly_byte_order(void) {
    uint8_t ranks[LYNDON_ORDER];
    memcpy(ranks, orders[BYTE_ORDER].ranks.at, sizeof ranks);
    for (size_t k = 0; k + 1 < LYNDON_ORDER; k++) {
        const uint8_t low = (uint8_t)k, high = (uint8_t)(k + 1), w[] = { high, low, high, high, low, low };
        ranks[low] = high;
        ranks[high] = low;
        bytes order = { ranks, sizeof ranks };
        check(all_calls((bytes){ w, sizeof w }, order) && all_edits((bytes){ w, 2 }, order, 2, 0), "the ranks of %zu and the next exchanged", k);
        ranks[low] = low;
        ranks[high] = high;
    }
}

void test_words(void) {
    part("every string of two letters to length 8 and of three to length 5, all functions, under each order");
    for (size_t k = 0; k < ORDERS; k++) {
        words_under(&orders[k], 2, 8);
        words_under(&orders[k], 3, 5);
    }
}

void test_edits(void) {
    part("every edit of every string of two letters to length 5 and of three to length 3, blocks to length 2, under each order");
    for (size_t k = 0; k < ORDERS; k++) {
        edits_under(&orders[k], 2, 5, 2);
        edits_under(&orders[k], 3, 3, 2);
    }
}

void test_random(void) {
    part("strings and edits without rule, each under an order of its own; byte order with two neighbours exchanged");
    random_words();
    nearly_byte_order();
}
