/* The worked example of the README, and a few more strings, with every answer written out: in byte order, which is filled once, and in the
 * reverse. How an answer and its rows are compared is left to calls.c; other strings and orders are left to sweep.c. */
#include "tests.h"

#include <stdio.h>

#define PATTERN LITERAL("acbabcabcabac")
#define HEADER "start,length,power,word,shared\r\n"
#define LISTING_TEXT HEADER "0,3,1,616362,1\r\n3,3,2,616263,2\r\n9,4,1,61626163,0\r\n"

/* Byte order, as the engine writes it. */
static uint8_t ranks[LYNDON_ORDER];

#define IN_BYTE_ORDER ((bytes){ ranks, sizeof ranks })

static const uint16_t groups[] = { 0, 3, 1, 3, 3, 2, 9, 4, 1 };
static const uint16_t array[] = { 3, 1, 1, 3, 2, 1, 3, 2, 1, 4, 1, 2, 1 };
static const uint16_t last[] = { 1, 2, 3, 1, 2, 3, 1, 2, 3, 1, 2, 1, 4 };
static const uint16_t longest[] = { 9 };

/* The tree of aabab: start and length of each node. */
static const uint16_t nodes[] = { 0, 5, 0, 3, 0, 1, 1, 2, 1, 1, 2, 1, 3, 2, 3, 1, 4, 1 };

/* A row for byte order that is exact, longer, short by one, empty. */
static void byte_order(void) {
    size_t count = 0;
    uint8_t refusal = lyndon_byte_order(ranks, sizeof ranks, &count);
    bool right = refusal == 0 && count == LYNDON_ORDER;
    for (size_t b = 0; b < LYNDON_ORDER; b++) right = right && ranks[b] == b;
    check(right, "lyndon_byte_order");
    const size_t rooms[] = { 256, 257, 300 }, short_rooms[] = { 255, 0 };
    for (size_t k = 0; k < 3; k++) {
        check(writes_byte_order(rooms[k], (told){ 0, { 256, 0 } }, (result){ ranks, 256 }), "lyndon_byte_order, %zu entries", rooms[k]);
    }
    for (size_t k = 0; k < 2; k++) check(writes_byte_order(short_rooms[k], REFUSED(8), NOTHING), "lyndon_byte_order, %zu", short_rooms[k]);
}

static void one_row(void) {
    struct {
        filling call;
        bytes w;
        told want;
        result r;
    } cases[] = {
        { FACTOR, PATTERN, { 0, { 3, 0 } }, { groups, 9 } },
        { ARRAY, PATTERN, { 0, { 13, 0 } }, { array, 13 } },
        { LAST_FACTORS, PATTERN, { 0, { 13, 0 } }, { last, 13 } },
        { LONGEST_WORDS, PATTERN, { 0, { 4, 1 } }, { longest, 1 } },
        { TREE, LITERAL("aabab"), { 0, { 9, 0 } }, { nodes, 18 } },
        { LISTING, PATTERN, { 0, { sizeof LISTING_TEXT - 1, 0 } }, { LISTING_TEXT, sizeof LISTING_TEXT - 1 } },
        { BLOCK, PATTERN, { 0, { 17, 0 } }, { "#213acbabcabcabac", 17 } },
        { FACTOR, LITERAL(""), { 0, { 0, 0 } }, NOTHING },
        { ARRAY, LITERAL(""), { 0, { 0, 0 } }, NOTHING },
        { LAST_FACTORS, LITERAL(""), { 0, { 0, 0 } }, NOTHING },
        { LONGEST_WORDS, LITERAL(""), { 0, { 0, 0 } }, NOTHING },
        { LISTING, LITERAL(""), { 0, { 32, 0 } }, { HEADER, 32 } },
        { LISTING, LITERAL("abab"), { 0, { 46, 0 } }, { HEADER "0,2,2,6162,0\r\n", 46 } },
        { LISTING, LITERAL("abcab"), { 0, { 62, 0 } }, { HEADER "0,3,1,616263,2\r\n3,2,1,6162,0\r\n", 62 } },
        { LISTING, LITERAL("\xFF\x0A"), { 0, { 56, 0 } }, { HEADER "0,1,1,FF,0\r\n1,1,1,0A,0\r\n", 56 } },
        { BLOCK, LITERAL(""), { 0, { 3, 0 } }, { "#10", 3 } },
        { BLOCK, LITERAL("\xFF\x0A"), { 0, { 5, 0 } }, { "#12\xFF\x0A", 5 } },
    };
    for (size_t k = 0; k < sizeof cases / sizeof *cases; k++) {
        bool good = fills_any_row(cases[k].call, cases[k].w, IN_BYTE_ORDER, cases[k].want, cases[k].r);
        check(good, "%s, case %zu", filling_name[cases[k].call], k);
    }
}

static void no_row(void) {
    check(tells_lyndon(PATTERN, IN_BYTE_ORDER, 0, false), "lyndon_is_lyndon of the pattern");
    check(tells_lyndon(LITERAL("abac"), IN_BYTE_ORDER, 0, true), "lyndon_is_lyndon of abac");
    check(tells_lyndon(LITERAL("\x7F\x80"), IN_BYTE_ORDER, 0, true), "lyndon_is_lyndon of 7F 80");
    check(tells_lyndon(LITERAL("\x80\x7F"), IN_BYTE_ORDER, 0, false), "lyndon_is_lyndon of 80 7F");
    check(tells_lyndon(LITERAL(""), IN_BYTE_ORDER, 0, false), "lyndon_is_lyndon of the empty string");
    check(tells_rotation(PATTERN, IN_BYTE_ORDER, 0, 9), "lyndon_least_rotation of the pattern");
    check(tells_rotation(LITERAL("baab"), IN_BYTE_ORDER, 0, 1), "lyndon_least_rotation of baab");
    check(tells_rotation(LITERAL("a"), IN_BYTE_ORDER, 0, 0), "lyndon_least_rotation of a");
    check(tells_rotation(LITERAL(""), IN_BYTE_ORDER, 0, 0), "lyndon_least_rotation of the empty pattern");
}

/* Of several longest words the first is told. */
static void longest_word(void) {
    const struct {
        bytes w;
        size_t start, size;
    } cases[] = {
        { PATTERN, 9, 4 },
        { LITERAL(""), 0, 0 },
        { LITERAL("a"), 0, 1 },
        { LITERAL("aa"), 0, 1 },
        { LITERAL("abab"), 0, 2 },
        { LITERAL("babab"), 1, 2 },
        { LITERAL("bacbabcab"), 1, 3 },
        { LITERAL("baab"), 1, 3 },
        { LITERAL("aabab"), 0, 5 },
        { LITERAL("\x7F\x80"), 0, 2 },
        { LITERAL("\x80\x7F"), 0, 1 },
    };
    for (size_t k = 0; k < sizeof cases / sizeof *cases; k++) {
        check(tells_longest_word(cases[k].w, IN_BYTE_ORDER, cases[k].start, cases[k].size), "lyndon_longest_word, case %zu", k);
    }
}

static void blocks(void) {
    const struct {
        bytes block;
        size_t place, count;
    } cases[] = {
        { LITERAL("#213acbabcabcabac"), 4, 13 },
        { LITERAL("#213acbabcabcabac\n"), 4, 13 },
        { LITERAL("#9000000013acbabcabcabac\n"), 11, 13 },
        { LITERAL("#10"), 3, 0 },
        { LITERAL("#3000\n"), 5, 0 },
        { LITERAL("#11\n"), 3, 1 },
        { LITERAL("#11\n\n"), 3, 1 },
        { LITERAL("#12\r\n"), 3, 2 },
    };
    for (size_t k = 0; k < sizeof cases / sizeof *cases; k++) {
        check(reads_block(cases[k].block, (told){ 0, { cases[k].place, cases[k].count } }), "lyndon_read_block, case %zu", k);
    }
}

/* Exact, longer, short by one, empty. */
static void one_part(side s, table t, size_t position, size_t count, const uint16_t *group) {
    bytes w = PATTERN, order = IN_BYTE_ORDER;
    told want = { 0, { count, 0 } };
    result r = { group, 3 * count };
    bool good = takes_part(s, w, order, t, position, r.n, want, r) && takes_part(s, w, order, t, position, r.n + 40, want, r);
    if (count > 0) {
        good = good && takes_part(s, w, order, t, position, r.n - 1, REFUSED(8), NOTHING);
        good = good && takes_part(s, w, order, t, position, 0, REFUSED(8), NOTHING);
    }
    check(good, "%s at %zu", side_name[s], position);
}

static void parts(void) {
    static const uint16_t suffix_at_4[] = { 4, 2, 1, 6, 3, 1, 9, 4, 1 };
    table lasts = { last, 13 }, arrays = { array, 13 };
    one_part(PREFIX, lasts, 0, 0, groups);
    one_part(PREFIX, lasts, 9, 2, groups);
    one_part(PREFIX, lasts, 13, 3, groups);
    one_part(SUFFIX, arrays, 0, 3, groups);
    one_part(SUFFIX, arrays, 4, 3, suffix_at_4);
    one_part(SUFFIX, arrays, 9, 1, groups + 6);
    one_part(SUFFIX, arrays, 13, 0, groups);
}

static void one_edit(size_t from, size_t to, bytes block, edited want) {
    given g = { PATTERN, IN_BYTE_ORDER, { array, 13 }, { last, 13 }, from, to, block };
    edited short_of = { .told = { .refusal = 8 } };
    size_t m = want.told.groups, s = want.told.starts;
    check(answers_edit(&g, m, s, &want), "lyndon_edit from %zu", from);
    check(answers_edit(&g, LYNDON_MAX_MIDDLE, 300, &want), "lyndon_edit from %zu, long rows", from);
    check(answers_edit(&g, m - 1, s, &short_of), "lyndon_edit from %zu, a record too few", from);
    check(answers_edit(&g, m, s - 1, &short_of), "lyndon_edit from %zu, a start too few", from);
}

static void edits(void) {
    static const uint16_t one[] = { 3, 6, 1 }, two[] = { 9, 2, 1, 11, 3, 1 }, three[] = { 3 }, many[] = { 0, 3, 6, 11 };
    lyndon_edit_answer replaced = { .refusal = 0, .kept = 1, .resume = 9, .groups = 1, .length = 6, .starts = 1 };
    lyndon_edit_answer put_in = { .refusal = 0, .kept = 3, .resume = 13, .groups = 2, .length = 3, .starts = 4 };
    one_edit(5, 6, LITERAL("b"), (edited){ replaced, one, three });
    one_edit(11, 11, LITERAL("a"), (edited){ put_in, two, many });
    given all_gone = { PATTERN, IN_BYTE_ORDER, { array, 13 }, { last, 13 }, 0, 13, LITERAL("") };
    edited nothing = { .told = { .resume = 13 } };
    check(answers_edit(&all_gone, 0, 0, &nothing), "lyndon_edit that empties the pattern");
}

/* The same pattern where c is smaller than b and b than a: a course's own order. */
static void reverse_order(void) {
    const char text[] = HEADER "0,1,1,61,0\r\n1,11,1,6362616263616263616261,1\r\n12,1,1,63,0\r\n";
    static const uint16_t reverse_groups[] = { 0, 1, 1, 1, 11, 1, 12, 1, 1 }, ones[] = { 1, 1 }, middle[] = { 0, 2, 1 }, first[] = { 0 };
    uint8_t course[LYNDON_ORDER];
    for (size_t b = 0; b < LYNDON_ORDER; b++) course[b] = (uint8_t)(255 - b);
    bytes order = { course, sizeof course };
    result listing = { text, sizeof text - 1 };
    check(fills_any_row(FACTOR, PATTERN, order, (told){ 0, { 3, 0 } }, (result){ reverse_groups, 9 }), "lyndon_factor, reverse");
    check(fills_any_row(LISTING, PATTERN, order, (told){ 0, { listing.n, 0 } }, listing), "lyndon_write_listing, reverse");
    check(tells_longest_word(PATTERN, order, 1, 11), "lyndon_longest_word, reverse");
    check(tells_lyndon(LITERAL("\x80\x7F"), order, 0, true), "lyndon_is_lyndon of 80 7F, reverse");
    check(tells_lyndon(LITERAL("\x7F\x80"), order, 0, false), "lyndon_is_lyndon of 7F 80, reverse");
    check(tells_rotation(LITERAL("baab"), order, 0, 3), "lyndon_least_rotation of baab, reverse");
    /* b put before ab: the factors are ba and b */
    given g = { LITERAL("ab"), order, { ones, 2 }, { ones, 2 }, 0, 0, LITERAL("b") };
    edited want = { { .resume = 1, .groups = 1, .length = 2, .starts = 1 }, middle, first };
    check(answers_edit(&g, 1, 1, &want), "lyndon_edit, reverse");
}

void test_example(void) {
    part("the worked example, rows exact, longer and too short");
    byte_order();
    one_row();
    no_row();
    longest_word();
    blocks();
    parts();
    edits();
    reverse_order();
}
