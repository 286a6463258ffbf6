/* Wanted tables: those of all short strings of two letters, the longest, and each refusal, alone and with later ones, under each order; and
 * 13 before all others with each row that is no order. Which pattern is written is left free, so it is judged by its table under the order,
 * from naive.c for a short one. All tables against all patterns are left to tests/compare. */
#include "naive.h"
#include "orders.h"
#include "tests.h"

#include <string.h>

#define LONGEST 8
#define N LYNDON_MAX_WANTED

/* A table that a string has, with exact, longer and short buffers. */
static bool realised(table wanted, bytes order) {
    uint8_t pattern[SHORT];
    told done = { 0, { wanted.n, 0 } };
    const size_t rooms[] = { wanted.n, wanted.n + 1, wanted.n + 100 };
    for (size_t k = 0; k < 3; k++) {
        if (!realises(wanted, order, rooms[k], done, pattern)) return false;
        facts f = naive_facts((bytes){ pattern, wanted.n }, order);
        if (memcmp(f.array, wanted.at, wanted.n * sizeof *wanted.at) != 0) return false;
    }
    if (wanted.n == 0) return true;
    return realises(wanted, order, wanted.n - 1, REFUSED(8), pattern) && realises(wanted, order, 0, REFUSED(8), pattern);
}

static void short_strings(const ranking *o) {
    words all = every_word(2, LONGEST);
    for (bytes w; next_word(&all, &w);) {
        facts f = naive_facts(w, o->ranks);
        check(realised((table){ f.array, w.n }, o->ranks), "the table of string %zu of length %zu, %s", all.number, w.n, o->name);
    }
}

static uint16_t ones[N + 1], falling[N], bad[N + 1];

/* Ones, which equal letters have, and 256 255 .. 1, which a smaller letter over and over and a larger one have; and what none has. */
static void prepare(void) {
    for (size_t k = 0; k < N; k++) falling[k] = (uint16_t)(N - k);
    for (size_t k = 0; k <= N; k++) ones[k] = bad[k] = 1;
    bad[0] = 0;
}

static void longest(const ranking *o) {
    static uint16_t array[N];
    static uint8_t pattern[N];
    const uint16_t *const tables[] = { ones, falling };
    for (size_t k = 0; k < 2; k++) {
        size_t count;
        bool good = realises((table){ tables[k], N }, o->ranks, N, (told){ 0, { N, 0 } }, pattern);
        good = good && lyndon_array(pattern, N, o->ranks.at, o->ranks.n, array, N, &count) == 0;
        check(good && memcmp(array, tables[k], sizeof array) == 0, "the longest wanted table, case %zu, %s", k, o->name);
    }
}

/* Too many entries, what no string has, a short row: each alone and with all later ones. */
static void refused(const ranking *o) {
    const struct {
        table wanted;
        size_t room;
        uint8_t number;
    } cases[] = {
        { { ones, N + 1 }, N + 1, LYNDON_WANTED_TOO_LONG }, { { ones, N + 1 }, 0, 11 }, { { bad, N + 1 }, N + 1, 11 }, { { bad, N + 1 }, 0, 11 },
        { { bad, N }, N, LYNDON_NO_PATTERN },               { { bad, N }, 0, 12 },      { { bad, 1 }, 0, 12 },         { { ones, N }, N - 1, 8 },
        { { falling, N }, N - 1, 8 },                       { { ones, N }, 0, 8 },      { { ones, 1 }, 0, 8 },
    };
    uint8_t pattern[SHORT];
    for (size_t k = 0; k < sizeof cases / sizeof *cases; k++) {
        told want = REFUSED(first_refusal(o, cases[k].number));
        bool good = realises(cases[k].wanted, o->ranks, cases[k].room, want, pattern);
        check(good, "lyndon_realise_array, %u, case %zu, %s", cases[k].number, k, o->name);
    }
}

/* An entry of 0, one past the end, the largest, and crossing stretches. */
static void no_string(const ranking *o) {
    static const struct {
        size_t n;
        uint16_t entry[4];
    } cases[] = {
        { 1, { 0 } },         { 1, { 2 } },         { 1, { 65535 } },        { 2, { 0, 1 } },       { 2, { 1, 0 } },
        { 2, { 3, 1 } },      { 2, { 1, 2 } },      { 2, { 65535, 1 } },     { 2, { 2, 65535 } },   { 3, { 2, 2, 1 } },
        { 4, { 3, 1, 2, 1 } }, { 4, { 2, 3, 2, 1 } }, { 4, { 1, 2, 2, 1 } }, { 4, { 4, 2, 2, 1 } },
    };
    uint8_t pattern[SHORT];
    told want = REFUSED(first_refusal(o, 12));
    for (size_t k = 0; k < sizeof cases / sizeof *cases; k++) {
        table wanted = { cases[k].entry, cases[k].n };
        bool good = realises(wanted, o->ranks, 4, want, pattern) && realises(wanted, o->ranks, 0, want, pattern);
        check(good, "lyndon_realise_array, 12, case %zu, %s", k, o->name);
    }
}

void test_wanted(void) {
    prepare();
    part("wanted tables under each order: of every string of two letters to length 8, the longest, what no string has");
    for (size_t k = 0; k < ORDERS; k++) {
        short_strings(&orders[k]);
        longest(&orders[k]);
        refused(&orders[k]);
        no_string(&orders[k]);
    }
    part("wanted tables, 13 alone and before each refusal");
    for (size_t k = 0; k < NO_ORDERS; k++) {
        uint8_t pattern[SHORT];
        told want = REFUSED(LYNDON_NOT_AN_ORDER);
        check(realises((table){ ones, N }, no_orders[k].ranks, N, want, pattern), "lyndon_realise_array, 13, %s", no_orders[k].name);
        check(realises((table){ ones, 0 }, no_orders[k].ranks, 0, want, pattern), "no wanted entry, 13, %s", no_orders[k].name);
        refused(&no_orders[k]);
        no_string(&no_orders[k]);
    }
}
