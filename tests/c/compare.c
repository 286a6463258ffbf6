/* Two strings compared, each pair both ways: worked examples, every two bytes and every two short strings, a first difference at each place
 * of a short string, the longest strings, and what is too long, under each order; and 13 before 1 with each row that is no order. Which
 * number is right for a short pair is from naive.c. Random pairs are left to tests/compare. */
#include "naive.h"
#include "orders.h"
#include "tests.h"

#include <string.h>

#define N LYNDON_MAX_PATTERN

/* The second number of the two strings exchanged. */
static size_t exchanged(size_t smaller) {
    static const size_t other[] = { 0, 2, 1 };
    return other[smaller];
}

static bool both_ways(bytes first, bytes second, bytes order, size_t shared, size_t smaller) {
    bool good = compares(first, second, order, (told){ 0, { shared, smaller } });
    return compares(second, first, order, (told){ 0, { shared, exchanged(smaller) } }) && good;
}

/* In byte order; in the reverse the other is smaller, unless one is a prefix of the other. */
static void examples(void) {
    const struct {
        bytes first, second;
        size_t shared, smaller, in_reverse;
    } cases[] = {
        { LITERAL(""), LITERAL(""), 0, 0, 0 },
        { LITERAL(""), LITERAL("a"), 0, 1, 1 },
        { LITERAL(""), LITERAL("\0"), 0, 1, 1 },
        { LITERAL("a"), LITERAL("a"), 1, 0, 0 },
        { LITERAL("\0"), LITERAL("\0\0"), 1, 1, 1 },
        { LITERAL("a"), LITERAL("b"), 0, 1, 2 },
        { LITERAL("\x7F"), LITERAL("\x80"), 0, 1, 2 },
        { LITERAL("\0"), LITERAL("\xFF"), 0, 1, 2 },
        { LITERAL("acb"), LITERAL("abc"), 1, 2, 1 },
        { LITERAL("abc"), LITERAL("abac"), 2, 2, 1 },
        { LITERAL("abcab"), LITERAL("abc"), 3, 2, 2 },
        { LITERAL("abcabcabc"), LITERAL("abcabcabc"), 9, 0, 0 },
        { LITERAL("abcabcabc"), LITERAL("abcabcabd"), 8, 1, 2 },
        { LITERAL("b"), LITERAL("abcabcabd"), 0, 2, 1 },
        { LITERAL("ab\x80z"), LITERAL("ab\x7Fzz"), 2, 2, 1 },
        { LITERAL("a\xFF"), LITERAL("a\0\xFF\xFF"), 1, 2, 1 },
    };
    for (size_t k = 0; k < sizeof cases / sizeof *cases; k++) {
        bool good = both_ways(cases[k].first, cases[k].second, orders[BYTE_ORDER].ranks, cases[k].shared, cases[k].smaller);
        good = both_ways(cases[k].first, cases[k].second, orders[REVERSE].ranks, cases[k].shared, cases[k].in_reverse) && good;
        check(good, "lyndon_compare, case %zu", k);
    }
}

static bool as_naive(bytes first, bytes second, bytes order) {
    return both_ways(first, second, order, naive_shared(first, second), naive_smaller(first, second, order));
}

/* A case for each first byte. */
static void every_byte(const ranking *o) {
    for (size_t a = 0; a < 256; a++) {
        size_t wrong = 0;
        for (size_t b = 0; b <= a; b++) {
            const uint8_t first[] = { (uint8_t)a, 'a' }, second[] = { (uint8_t)b, 'a' };
            wrong += !as_naive((bytes){ first, 2 }, (bytes){ second, 2 }, o->ranks);
        }
        check(wrong == 0, "%zu bytes beside %02zX, %s", wrong, a, o->name);
    }
}

/* Each string beside all; a case for each. */
static void short_strings(const ranking *o, size_t letters, size_t longest) {
    words all = every_word(letters, longest);
    for (bytes first; next_word(&all, &first);) {
        words others = every_word(letters, longest);
        size_t wrong = 0;
        for (bytes second; next_word(&others, &second);) wrong += !as_naive(first, second, o->ranks);
        check(wrong == 0, "%zu strings beside string %zu of length %zu, %s", wrong, all.number, first.n, o->name);
    }
}

/* The first string has the smaller of 7F and 80 at a place, and the larger ones behind it, which do not count. */
static void places(const ranking *o) {
    uint8_t first[SHORT], second[SHORT];
    bool rising = o->ranks.at[0x7F] < o->ranks.at[0x80];
    uint8_t low = rising ? 0x7F : 0x80, high = rising ? 0x80 : 0x7F;
    for (size_t k = 0; k < SHORT; k++) {
        memset(first, high, SHORT);
        memset(second, high, k + 1);
        memset(second + k + 1, low, SHORT - k - 1);
        first[k] = low;
        bool good = both_ways((bytes){ first, SHORT }, (bytes){ second, SHORT }, o->ranks, k, 1);
        good = good && both_ways((bytes){ first, SHORT }, (bytes){ second, k + 1 }, o->ranks, k, 1);
        good = good && both_ways((bytes){ first, k }, (bytes){ second, SHORT }, o->ranks, k, 1);
        check(good, "lyndon_compare of strings that differ at %zu, %s", k, o->name);
    }
}

/* The same bytes given twice, and a string beside its own beginning; a string that is its own order. */
static void overlapping(const ranking *o) {
    static const uint8_t word[] = { 0x61, 0x62, 0x61 };
    const uint8_t *ranks = o->ranks.at;
    size_t shared = 9;
    uint8_t smaller = 9;
    uint8_t refusal = lyndon_compare(word, 3, word, 3, ranks, LYNDON_ORDER, &shared, &smaller);
    check(refusal == 0 && shared == 3 && smaller == 0, "lyndon_compare of a row with itself, %s", o->name);
    refusal = lyndon_compare(word, 3, word, 1, ranks, LYNDON_ORDER, &shared, &smaller);
    check(refusal == 0 && shared == 1 && smaller == 2, "lyndon_compare of a row with its beginning, %s", o->name);
    refusal = lyndon_compare(word, 3, word + 2, 1, ranks, LYNDON_ORDER, &shared, &smaller);
    check(refusal == 0 && shared == 1 && smaller == 2, "lyndon_compare of a row with its end, %s", o->name);
    refusal = lyndon_compare(ranks, LYNDON_ORDER, ranks, 7, ranks, LYNDON_ORDER, &shared, &smaller);
    check(refusal == 0 && shared == 7 && smaller == 2, "lyndon_compare of an order under itself, %s", o->name);
}

/* Equal letters to the limit, with one changed at the front, in the middle and at the end. */
static void longest(const ranking *o) {
    static uint8_t first[N], second[N];
    memset(first, 'a', N);
    memset(second, 'a', N);
    bytes a = { first, N }, b = { second, N }, order = o->ranks;
    check(both_ways(a, b, order, N, 0), "lyndon_compare of the longest, equal, %s", o->name);
    check(both_ways(a, (bytes){ second, N - 1 }, order, N - 1, 2), "lyndon_compare of the longest and a byte less, %s", o->name);
    check(both_ways(a, (bytes){ second, 0 }, order, 0, 2), "lyndon_compare of the longest and the empty string, %s", o->name);
    const size_t differ[] = { 0, 1, N / 2, N - 2, N - 1 };
    for (size_t k = 0; k < sizeof differ / sizeof *differ; k++) {
        second[differ[k]] = 'b';
        size_t smaller = order.at['a'] < order.at['b'] ? 1 : 2;
        check(both_ways(a, b, order, differ[k], smaller), "lyndon_compare of the longest that differ at %zu, %s", differ[k], o->name);
        second[differ[k]] = 'a';
    }
}

/* Either string too long, or both, by one byte and by so many that 16 bits take it for a short one. */
static void too_long(const ranking *o) {
    static uint8_t letters[65536 + 5];
    memset(letters, 'a', sizeof letters);
    told want = REFUSED(first_refusal(o, LYNDON_PATTERN_TOO_LONG));
    const size_t lengths[] = { N + 1, 65536, sizeof letters }, others[] = { 0, 1, 5, N, N + 1, sizeof letters };
    for (size_t k = 0; k < sizeof lengths / sizeof *lengths; k++) {
        for (size_t i = 0; i < sizeof others / sizeof *others; i++) {
            bytes a = { letters, lengths[k] }, b = { letters, others[i] };
            check(compares(a, b, o->ranks, want), "lyndon_compare, 1, %zu and %zu bytes, %s", a.n, b.n, o->name);
            check(compares(b, a, o->ranks, want), "lyndon_compare, 1, %zu and %zu bytes, %s", b.n, a.n, o->name);
        }
    }
    bytes a = { letters, N + 1 };
    bool good = compares(a, LITERAL("b"), o->ranks, want) && compares(LITERAL("b"), a, o->ranks, want);
    check(good, "lyndon_compare, 1, another first letter, %s", o->name);
}

void test_compare(void) {
    part("two strings compared under each order: every two bytes and short strings, a difference at each place, the longest, what is too long");
    examples();
    for (size_t k = 0; k < ORDERS; k++) {
        every_byte(&orders[k]);
        short_strings(&orders[k], 2, 5);
        short_strings(&orders[k], 3, 3);
        places(&orders[k]);
        overlapping(&orders[k]);
        longest(&orders[k]);
        too_long(&orders[k]);
    }
    part("two strings compared, 13 before 1");
    for (size_t k = 0; k < NO_ORDERS; k++) too_long(&no_orders[k]);
}
