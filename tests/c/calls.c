/* Every function of lyndon.h made once and compared, as calls.h says. A number that a function sets is preset to one that none answers,
 * and each row is lent out of a longer one. Which calls are made is left to the tests. */
#include "calls.h"

#include <string.h>

#define UNSET ((size_t)0xDEADBEEF)

const char *const filling_name[FILLINGS] = { "lyndon_factor", "lyndon_array",         "lyndon_last_factors", "lyndon_longest_words",
                                             "lyndon_tree",   "lyndon_write_listing", "lyndon_write_block" };
const char *const side_name[2] = { "lyndon_factor_prefix", "lyndon_factor_suffix" };

static size_t width(filling call) {
    return call == LISTING || call == BLOCK ? sizeof(uint8_t) : sizeof(uint16_t);
}

/* A string and its order, lent to be read. */
typedef struct {
    lent string, order;
} reading;

static reading lend_reading(bytes w, bytes order) {
    return (reading){ lend_copy(w.at, w.n), lend_copy(order.at, order.n) };
}

static bool reading_unchanged(reading l, bytes w, bytes order) {
    bool kept = unchanged(l.string, w.at);
    return unchanged(l.order, order.at) && kept;
}

/* A string's two arguments and its order's. */
#define BYTES(l) (l).row, (l).size
#define READING(l) BYTES((l).string), BYTES((l).order)

static told fill(filling call, reading l, uint8_t *row, size_t room) {
    told t = { 0xEE, { UNSET, UNSET } };
    uint16_t *numbers = (uint16_t *)(void *)row;
    size_t *count = &t.number[0];
    if (call == LONGEST_WORDS) {
        t.refusal = lyndon_longest_words(READING(l), numbers, room, &t.number[0], &t.number[1]);
        return t;
    }
    t.number[1] = 0;
    switch (call) {
    case FACTOR: t.refusal = lyndon_factor(READING(l), numbers, room, count); break;
    case ARRAY: t.refusal = lyndon_array(READING(l), numbers, room, count); break;
    case LAST_FACTORS: t.refusal = lyndon_last_factors(READING(l), numbers, room, count); break;
    case TREE: t.refusal = lyndon_tree(READING(l), numbers, room, count); break;
    case LISTING: t.refusal = lyndon_write_listing(READING(l), row, room, count); break;
    case BLOCK: t.refusal = lyndon_write_block(BYTES(l.string), row, room, count); break;
    default: break;
    }
    return t;
}

static bool equal(told a, told b) {
    return a.refusal == b.refusal && a.number[0] == b.number[0] && a.number[1] == b.number[1];
}

bool tells_interface(uint32_t number) {
    return lyndon_interface() == number && lyndon_edit_interface() == number;
}

bool writes_byte_order(size_t room, told want, result r) {
    lent row = lend(room);
    told got = { 0xEE, { UNSET, 0 } };
    got.refusal = lyndon_byte_order(BYTES(row), &got.number[0]);
    return holds(row, r.entries, r.n) && equal(got, want);
}

bool fills(filling call, bytes w, bytes order, size_t room, told want, result r) {
    size_t size = width(call);
    reading l = lend_reading(w, order);
    lent row = lend(room * size);
    told got = fill(call, l, row.row, room);
    bool kept = reading_unchanged(l, w, order);
    return holds(row, r.entries, r.n * size) && kept && equal(got, want);
}

bool fills_any_row(filling call, bytes w, bytes order, told want, result r) {
    bool good = true;
    const size_t rooms[] = { r.n, r.n + 1, r.n + 100 };
    for (size_t k = 0; k < 3; k++) good = good && fills(call, w, order, rooms[k], want, r);
    if (r.n == 0) return good;
    return good && fills(call, w, order, r.n - 1, REFUSED(8), NOTHING) && fills(call, w, order, 0, REFUSED(8), NOTHING);
}

bool tells_lyndon(bytes w, bytes order, uint8_t refusal, bool yes) {
    reading l = lend_reading(w, order);
    bool got = !yes;
    uint8_t number = lyndon_is_lyndon(READING(l), &got);
    return reading_unchanged(l, w, order) && number == refusal && got == yes;
}

bool tells_rotation(bytes w, bytes order, uint8_t refusal, size_t start) {
    reading l = lend_reading(w, order);
    size_t got = UNSET;
    uint8_t number = lyndon_least_rotation(READING(l), &got);
    return reading_unchanged(l, w, order) && number == refusal && got == start;
}

bool tells_longest_word(bytes w, bytes order, size_t start, size_t size) {
    reading l = lend_reading(w, order);
    size_t got_start = UNSET, got_size = UNSET;
    lyndon_longest_word(READING(l), &got_start, &got_size);
    return reading_unchanged(l, w, order) && got_start == start && got_size == size;
}

bool compares(bytes first, bytes second, bytes order, told want) {
    lent a = lend_copy(first.at, first.n);
    reading l = lend_reading(second, order);
    told got = { 0xEE, { UNSET, UNSET } };
    uint8_t smaller = 0xEE;
    got.refusal = lyndon_compare(BYTES(a), READING(l), &got.number[0], &smaller);
    got.number[1] = smaller;
    bool kept = unchanged(a, first.at);
    return reading_unchanged(l, second, order) && kept && equal(got, want);
}

bool reads_block(bytes block, told want) {
    lent l = lend_copy(block.at, block.n);
    told got = { 0xEE, { UNSET, UNSET } };
    got.refusal = lyndon_read_block(BYTES(l), &got.number[0], &got.number[1]);
    return unchanged(l, block.at) && equal(got, want);
}

/* A table, lent to be read. */
static lent lend_table(table t) {
    return lend_copy(t.at, t.n * sizeof *t.at);
}

#define U16(l) ((uint16_t *)(void *)(l).row)

bool realises(table wanted, bytes order, size_t room, told want, uint8_t *pattern) {
    lent t = lend_table(wanted), ranks = lend_copy(order.at, order.n), row = lend(room);
    told got = { 0xEE, { UNSET, 0 } };
    got.refusal = lyndon_realise_array(U16(t), wanted.n, BYTES(ranks), BYTES(row), &got.number[0]);
    memcpy(pattern, row.row, want.number[0]);
    bool kept = unchanged(t, wanted.at);
    kept = unchanged(ranks, order.at) && kept;
    return holds(row, pattern, want.number[0]) && kept && equal(got, want);
}

bool takes_part(side s, bytes w, bytes order, table t, size_t position, size_t room, told want, result r) {
    reading l = lend_reading(w, order);
    lent entries = lend_table(t), row = lend(room * sizeof(uint16_t));
    told got = { 0xEE, { UNSET, 0 } };
    if (s == PREFIX) {
        got.refusal = lyndon_factor_prefix(READING(l), U16(entries), t.n, U16(row), room, position, &got.number[0]);
    } else {
        got.refusal = lyndon_factor_suffix(READING(l), U16(entries), t.n, U16(row), room, position, &got.number[0]);
    }
    bool kept = reading_unchanged(l, w, order);
    kept = unchanged(entries, t.at) && kept;
    return holds(row, r.entries, r.n * sizeof(uint16_t)) && kept && equal(got, want);
}

/* What an edit reads and writes, each row lent. */
typedef struct {
    reading pattern;
    lent array, last, block, middle, starts;
} rows;

static rows lend_rows(const given *g, size_t middle_room, size_t starts_room) {
    return (rows){
        .pattern = lend_reading(g->pattern, g->order),
        .array = lend_table(g->array),
        .last = lend_table(g->last),
        .block = lend_copy(g->block.at, g->block.n),
        .middle = lend(middle_room * sizeof(lyndon_group)),
        .starts = lend(starts_room * sizeof(uint16_t)),
    };
}

static bool hold(rows l, const given *g, const edited *want) {
    const lyndon_edit_answer *t = &want->told;
    bool good = reading_unchanged(l.pattern, g->pattern, g->order);
    good = unchanged(l.array, g->array.at) && good;
    good = unchanged(l.last, g->last.at) && good;
    good = unchanged(l.block, g->block.at) && good;
    good = holds(l.middle, want->middle, t->groups * sizeof(lyndon_group)) && good;
    return holds(l.starts, want->starts, t->starts * sizeof(uint16_t)) && good;
}

static bool same_answer(lyndon_edit_answer a, lyndon_edit_answer b) {
    return a.refusal == b.refusal && a.kept == b.kept && a.resume == b.resume && a.groups == b.groups && a.length == b.length &&
           a.starts == b.starts;
}

bool answers_edit(const given *g, size_t middle_room, size_t starts_room, const edited *want) {
    rows l = lend_rows(g, middle_room, starts_room);
    lyndon_group *middle = (lyndon_group *)(void *)l.middle.row;
    lyndon_edit_answer got = lyndon_edit(READING(l.pattern), U16(l.array), g->array.n, U16(l.last), g->last.n, g->from, g->to,
                                         BYTES(l.block), middle, middle_room, U16(l.starts), starts_room);
    return hold(l, g, want) && same_answer(got, want->told);
}
