/* Refusal 13 alone: every function that takes an order, given what it accepts under each order, with rows that are none; and rows that are
 * nearly one, of every length to 300 and with each entry changed. With other refusals it is left to the files of these. */
#include "orders.h"
#include "tests.h"

#include <string.h>

#define LONGEST_ROW 300

/* The strings are a, ab and ba, the tables those of a. What the calls answer under an order is left to the other tests, but not whether they
 * refuse. */
static void without_row(const ranking *o) {
    bytes order = o->ranks;
    uint8_t number = o->refusal;
    bool accepted = number == 0;
    check(tells_lyndon(LITERAL("a"), order, number, accepted), "lyndon_is_lyndon, %s", o->name);
    check(tells_rotation(LITERAL("a"), order, number, 0), "lyndon_least_rotation, %s", o->name);
    check(tells_longest_word(LITERAL("a"), order, 0, accepted), "lyndon_longest_word, %s", o->name);
    told same = accepted ? (told){ 0, { 2, 0 } } : REFUSED(number), longer = accepted ? (told){ 0, { 1, 1 } } : REFUSED(number);
    check(compares(LITERAL("ab"), LITERAL("ab"), order, same), "lyndon_compare of equal strings, %s", o->name);
    check(compares(LITERAL("b"), LITERAL("ba"), order, longer), "lyndon_compare of a prefix, %s", o->name);
    check(compares(LITERAL(""), LITERAL(""), order, REFUSED(number)), "lyndon_compare of empty strings, %s", o->name);
}

/* The results for a; an edit takes it out. */
static void with_rows(const ranking *o) {
    static const uint16_t group[] = { 0, 1, 1 }, start[] = { 0 }, one[] = { 1 };
    static const char text[] = "start,length,power,word,shared\r\n0,1,1,61,0\r\n";
    const struct {
        told want;
        result r;
    } cases[] = {
        [FACTOR] = { { 0, { 1, 0 } }, { group, 3 } },
        [ARRAY] = { { 0, { 1, 0 } }, { one, 1 } },
        [LAST_FACTORS] = { { 0, { 1, 0 } }, { one, 1 } },
        [LONGEST_WORDS] = { { 0, { 1, 1 } }, { start, 1 } },
        [TREE] = { { 0, { 1, 0 } }, { group, 2 } },
        [LISTING] = { { 0, { sizeof text - 1, 0 } }, { text, sizeof text - 1 } },
    };
    bytes a = LITERAL("a");
    bool accepted = o->refusal == 0;
    told refused = REFUSED(o->refusal);
    for (filling call = FACTOR; call <= LISTING; call++) {
        result r = accepted ? cases[call].r : NOTHING;
        check(fills(call, a, o->ranks, 99, accepted ? cases[call].want : refused, r), "%s, %s", filling_name[call], o->name);
    }
    for (side s = PREFIX; s <= SUFFIX; s++) {
        told want = accepted ? (told){ 0, { 1, 0 } } : refused;
        result r = accepted ? (result){ group, 3 } : NOTHING;
        check(takes_part(s, a, o->ranks, (table){ one, 1 }, s == PREFIX, 99, want, r), "%s, %s", side_name[s], o->name);
    }
    given g = { a, o->ranks, { one, 1 }, { one, 1 }, 0, 1, LITERAL("") };
    edited want = { .told = { .refusal = o->refusal, .resume = accepted } };
    check(answers_edit(&g, 9, 9, &want), "lyndon_edit, %s", o->name);
}

static bool is_none(const uint8_t *ranks, size_t n) {
    return tells_lyndon(LITERAL("a"), (bytes){ ranks, n }, LYNDON_NOT_AN_ORDER, false);
}

/* Every length but the right one, the order going on from its front; each entry changed to the next rank, and to the first or last. */
static void nearly(const ranking *o) {
    uint8_t ranks[LONGEST_ROW];
    for (size_t k = 0; k < LONGEST_ROW; k++) ranks[k] = o->ranks.at[k % LYNDON_ORDER];
    size_t wrong = 0;
    for (size_t n = 0; n <= LONGEST_ROW; n++) wrong += n != LYNDON_ORDER && !is_none(ranks, n);
    check(wrong == 0, "%zu lengths of %s", wrong, o->name);
    wrong = 0;
    for (size_t k = 0; k < LYNDON_ORDER; k++) {
        uint8_t right = ranks[k];
        const uint8_t other[] = { (uint8_t)(right + 1), (uint8_t)(right ^ 0x80), right == 0 ? 255 : 0 };
        for (size_t i = 0; i < sizeof other; i++) {
            ranks[k] = other[i];
            wrong += !is_none(ranks, LYNDON_ORDER);
        }
        ranks[k] = right;
    }
    check(wrong == 0, "%zu changed entries of %s", wrong, o->name);
}

/* The short strings of words.h would not tell an order from byte order or the reverse that ranks their three letters as that does. */
static void third_order(void) {
    const uint8_t *rank = orders[SHUFFLED].ranks.at;
    bool rising = rank[0x00] < rank[0x7F] && rank[0x7F] < rank[0x80], falling = rank[0x00] > rank[0x7F] && rank[0x7F] > rank[0x80];
    check(!rising && !falling, "the shuffled order ranks the letters as byte order or its reverse does");
}

void test_no_order(void) {
    part("each function under each order and with what is none; rows that are nearly an order");
    third_order();
    for (size_t k = 0; k < ORDERS; k++) {
        without_row(&orders[k]);
        with_rows(&orders[k]);
        nearly(&orders[k]);
    }
    for (size_t k = 0; k < NO_ORDERS; k++) {
        without_row(&no_orders[k]);
        with_rows(&no_orders[k]);
    }
}
