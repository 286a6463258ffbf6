/* Each refusal that each function can give, alone and with later ones, its number written out: under each order, and once more with each row
 * that is no order, when it is 13. A refused call sets its numbers to 0 and leaves every row as it was, which calls.c looks at. Where the
 * limits lie is left to limits.c, 13 alone to no_order.c; comparisons and wanted tables have files of their own. */
#include "orders.h"
#include "tests.h"

#include <string.h>

#define LONG (LYNDON_MAX_PATTERN + 1)
#define PLENTY (3 * LONG) /* entries: more than any result has */

static uint8_t letters[LONG + 255];

/* Both tables of a string of equal letters. */
static uint16_t ones[LONG];

static bytes equal_letters(size_t n) {
    return (bytes){ letters, n };
}

static void prepare(void) {
    memset(letters, 'a', sizeof letters);
    for (size_t k = 0; k < LONG; k++) ones[k] = 1;
}

/* A function that writes one row, which for aa has `need` entries: too long, too long with a short row, a short row. */
static void one_row(filling call, size_t need, bytes order, uint8_t too_long, uint8_t too_short, const char *under) {
    const char *name = filling_name[call];
    check(fills(call, equal_letters(LONG), order, PLENTY, REFUSED(too_long), NOTHING), "%s, 1, %s", name, under);
    check(fills(call, equal_letters(LONG), order, 0, REFUSED(too_long), NOTHING), "%s, 1 before 8, %s", name, under);
    check(fills(call, equal_letters(2), order, need - 1, REFUSED(too_short), NOTHING), "%s, 8, %s", name, under);
}

static void no_table(const ranking *o) {
    static const filling calls[] = { FACTOR, ARRAY, LAST_FACTORS, LONGEST_WORDS, LISTING };
    static const size_t need[] = { 3, 2, 2, 2, 44 };
    uint8_t one = first_refusal(o, 1), eight = first_refusal(o, 8);
    for (size_t k = 0; k < sizeof calls / sizeof *calls; k++) one_row(calls[k], need[k], o->ranks, one, eight, o->name);
    check(tells_lyndon(equal_letters(LONG), o->ranks, one, false), "lyndon_is_lyndon, 1, %s", o->name);
}

static void rotations(const ranking *o) {
    const struct {
        bytes w;
        uint8_t number;
    } cases[] = {
        { LITERAL("abab"), LYNDON_REPEATED }, { LITERAL("baba"), 10 }, { LITERAL("abcabcabc"), 10 },
        { equal_letters(LONG - 1), 10 },      { equal_letters(LONG), 1 },
    };
    for (size_t k = 0; k < sizeof cases / sizeof *cases; k++) {
        bool good = tells_rotation(cases[k].w, o->ranks, first_refusal(o, cases[k].number), 0);
        check(good, "lyndon_least_rotation, %u, case %zu, %s", cases[k].number, k, o->name);
    }
}

/* Too long for a word, and no number: both numbers are 0, also where the word would not be at the front. */
static void no_word(const ranking *o) {
    uint8_t pattern[LONG];
    memset(pattern, 'a', LONG);
    check(tells_longest_word((bytes){ pattern, LONG }, o->ranks, 0, 0), "lyndon_longest_word, too long, equal letters, %s", o->name);
    pattern[0] = pattern[LONG - 1] = 'b';
    check(tells_longest_word((bytes){ pattern, LONG }, o->ranks, 0, 0), "lyndon_longest_word, too long, ba .. ab, %s", o->name);
}

static void not_blocks(void) {
    const bytes cases[] = {
        LITERAL(""),       LITERAL("#"),     LITERAL("#1"),        LITERAL("#11"),     LITERAL("#11ab"),       LITERAL("#11a\n\n"),
        LITERAL("#11a\r"), LITERAL("#10a"),  LITERAL(" #10"),      LITERAL("$10"),     LITERAL("#2 1a"),       LITERAL("#2+1a"),
        LITERAL("#2/1a"),  LITERAL("#2:1a"), LITERAL("#11a\r\n"),  LITERAL("#0"),      LITERAL("#0a\n"),       LITERAL("#00"),
        LITERAL("#:"),     LITERAL("#/"),    LITERAL("#\xB1\xB0"), LITERAL("#565536"), LITERAL("#9999999999"),
    };
    for (size_t k = 0; k < sizeof cases / sizeof *cases; k++) check(reads_block(cases[k], REFUSED(9)), "lyndon_read_block, 9, case %zu", k);
}

/* A block whose count is one over the limit is refused by 1; with a byte fewer or more than its count it is none. */
static void long_blocks(void) {
    uint8_t block[7 + LONG + 1];
    memset(block, 'a', sizeof block);
    memcpy(block, "#516385", 7);
    check(reads_block((bytes){ block, 7 + LONG }, REFUSED(1)), "lyndon_read_block, 1");
    check(reads_block((bytes){ block, 7 + LONG - 1 }, REFUSED(9)), "lyndon_read_block, 9 before 1, a byte too few");
    check(reads_block((bytes){ block, 7 + LONG + 1 }, REFUSED(9)), "lyndon_read_block, 9 before 1, a byte too many");
    check(reads_block((bytes){ block, 7 }, REFUSED(9)), "lyndon_read_block, 9 before 1, no bytes");
    block[7 + LONG] = '\n';
    check(reads_block((bytes){ block, 7 + LONG + 1 }, REFUSED(1)), "lyndon_read_block, 1, a line feed");
}

static void tree(const ranking *o) {
    const struct {
        bytes w;
        size_t room;
        uint8_t number;
    } cases[] = {
        { { letters, 257 }, PLENTY, 6 }, { { letters, 257 }, 0, 6 },      { { letters, LONG }, PLENTY, 6 },
        { { letters, 2 }, PLENTY, 7 },   { { letters, 2 }, 0, 7 },        { { letters, 256 }, PLENTY, 7 },
        { { letters, 0 }, PLENTY, 7 },   { { letters, 0 }, 0, 7 },        { { letters, 1 }, 1, 8 },
        { { letters, 1 }, 0, 8 },
    };
    for (size_t k = 0; k < sizeof cases / sizeof *cases; k++) {
        bool good = fills(TREE, cases[k].w, o->ranks, cases[k].room, REFUSED(first_refusal(o, cases[k].number)), NOTHING);
        check(good, "lyndon_tree, %u, case %zu, %s", cases[k].number, k, o->name);
    }
}

/* A pattern of equal letters has the same tables from both sides. */
static void parts(const ranking *o) {
    uint16_t wrong[10];
    memcpy(wrong, ones, sizeof wrong);
    wrong[9] = 2;
    const struct {
        size_t n;
        table t;
        size_t position, room;
        uint8_t number;
    } cases[] = {
        { LONG, { ones, LONG }, 5, PLENTY, 1 }, { LONG, { ones, 0 }, LONG + 1, 0, 1 },
        { 10, { ones, 10 }, 11, PLENTY, 2 },    { 10, { wrong, 9 }, 11, 0, 2 },      { 10, { ones, 10 }, SIZE_MAX, PLENTY, 2 },
        { 10, { ones, 9 }, 5, PLENTY, 5 },      { 10, { wrong, 10 }, 5, PLENTY, 5 }, { 10, { wrong, 10 }, 5, 0, 5 },
        { 10, { ones, 0 }, 0, PLENTY, 5 },      { 10, { ones, 10 }, 5, 2, 8 },       { 10, { ones, 10 }, 5, 0, 8 },
    };
    for (size_t k = 0; k < sizeof cases / sizeof *cases; k++) {
        for (side s = PREFIX; s <= SUFFIX; s++) {
            told want = REFUSED(first_refusal(o, cases[k].number));
            bool good = takes_part(s, equal_letters(cases[k].n), o->ranks, cases[k].t, cases[k].position, cases[k].room, want, NOTHING);
            check(good, "%s, %u, case %zu, %s", side_name[s], cases[k].number, k, o->name);
        }
    }
}

/* The numbers of an edit: lengths of pattern and tables, the stretch, the block's length, and of rows in groups and starts. */
typedef struct {
    size_t n, array, last, from, to, block, middle, starts;
    uint8_t number;
} edit_case;

static const edit_case edits[] = {
    /* each alone */
    { LONG, LONG, LONG, 0, 9, 0, 300, PLENTY, 1 },
    { 10, 10, 10, 6, 5, 0, 300, PLENTY, 2 },
    { 10, 10, 10, 0, 11, 0, 300, PLENTY, 2 },
    { 10, 10, 10, 11, 11, 0, 300, PLENTY, 2 },
    { 10, 10, 10, SIZE_MAX, SIZE_MAX, 0, 300, PLENTY, 2 },
    { 10, 10, 10, SIZE_MAX, 0, 0, 300, PLENTY, 2 },
    { 10, 10, 10, 0, 10, 257, 300, PLENTY, 3 },
    { LONG - 1, LONG - 1, LONG - 1, 0, 0, 1, 300, PLENTY, 4 },
    { 10, 9, 10, 0, 0, 1, 300, PLENTY, 5 },
    { 10, 10, 9, 0, 0, 1, 300, PLENTY, 5 },
    { 10, 0, 10, 0, 0, 1, 300, PLENTY, 5 },
    { 10, 10, 10, 0, 0, 1, 0, PLENTY, 8 },
    { 10, 10, 10, 0, 0, 1, 300, 10, 8 },
    /* with all later ones */
    { LONG, 0, 0, SIZE_MAX, 0, 257, 0, 0, 1 },
    { LONG - 1, 0, 0, 2, 1, 257, 0, 0, 2 },
    { LONG - 1, 0, 0, 1, 1, 257, 0, 0, 3 },
    { LONG - 1, 0, 0, 1, 1, 256, 0, 0, 4 },
    { LONG - 1, 0, 0, 0, 256, 256, 0, 0, 5 },
    { LONG - 1, LONG - 1, LONG - 1, 0, 256, 256, 0, 0, 8 },
};

static void refused_edits(const ranking *o) {
    for (size_t k = 0; k < sizeof edits / sizeof *edits; k++) {
        const edit_case *c = &edits[k];
        given g = { equal_letters(c->n), o->ranks, { ones, c->array }, { ones, c->last }, c->from, c->to, { letters, c->block } };
        edited want = { .told = { .refusal = first_refusal(o, c->number) } };
        check(answers_edit(&g, c->middle, c->starts, &want), "lyndon_edit, %u, case %zu, %s", c->number, k, o->name);
    }
}

/* A single wrong entry of either table refuses an edit. */
static void wrong_entries(const ranking *o) {
    edited want = { .told = { .refusal = first_refusal(o, 5) } };
    for (size_t k = 0; k < 10; k++) {
        uint16_t wrong[10];
        memcpy(wrong, ones, sizeof wrong);
        wrong[k]++;
        given first = { equal_letters(10), o->ranks, { wrong, 10 }, { ones, 10 }, 4, 5, { letters, 2 } };
        given second = { equal_letters(10), o->ranks, { ones, 10 }, { wrong, 10 }, 4, 5, { letters, 2 } };
        bool good = answers_edit(&first, 300, PLENTY, &want) && answers_edit(&second, 300, PLENTY, &want);
        check(good, "lyndon_edit, entry %zu, %s", k, o->name);
    }
}

static void refused_under(const ranking *o) {
    no_table(o);
    rotations(o);
    no_word(o);
    tree(o);
    parts(o);
    refused_edits(o);
    wrong_entries(o);
}

void test_refusals(void) {
    prepare();
    part("each refusal of each function, alone and with later ones, under each order");
    not_blocks();
    long_blocks();
    one_row(BLOCK, 5, NO_ORDER, 1, 8, "no order");
    for (size_t k = 0; k < ORDERS; k++) refused_under(&orders[k]);
    part("13 before each refusal of each function");
    for (size_t k = 0; k < NO_ORDERS; k++) refused_under(&no_orders[k]);
}
