/* The definitions for short strings, as naive.h says: each is computed as it reads. Limits and refusals are left to the tests. */
#include "naive.h"

#include <stdio.h>
#include <string.h>

static bytes slice(bytes w, size_t from, size_t to) {
    return (bytes){ w.at + from, to - from };
}

/* Entry b of an order is the rank of byte b. */
static uint8_t rank(bytes order, uint8_t b) {
    return order.at[b];
}

/* The smaller has the smaller rank at the first difference; a proper prefix is smaller. */
static bool smaller(bytes a, bytes b, bytes order) {
    for (size_t k = 0; k < a.n && k < b.n; k++) {
        if (a.at[k] != b.at[k]) return rank(order, a.at[k]) < rank(order, b.at[k]);
    }
    return a.n < b.n;
}

size_t naive_smaller(bytes first, bytes second, bytes order) {
    return smaller(first, second, order) ? 1 : smaller(second, first, order) ? 2 : 0;
}

/* The same bytes. */
static bool same(bytes a, bytes b) {
    return a.n == b.n && memcmp(a.at, b.at, a.n) == 0;
}

size_t naive_shared(bytes first, bytes second) {
    size_t n = first.n < second.n ? first.n : second.n;
    while (!same(slice(first, 0, n), slice(second, 0, n))) n--;
    return n;
}

/* Nonempty, and smaller than each of its nonempty proper suffixes. */
static bool is_lyndon(bytes w, bytes order) {
    for (size_t k = 1; k < w.n; k++) {
        if (!smaller(w, slice(w, k, w.n), order)) return false;
    }
    return w.n > 0;
}

/* The length of the longest Lyndon word that starts at i. */
static size_t longest_at(bytes w, bytes order, size_t i) {
    size_t end = w.n;
    while (!is_lyndon(slice(w, i, end), order)) end--;
    return end - i;
}

/* The bounds of the factors, from 0 to the length; answers the number of factors. */
static size_t factors(bytes w, bytes order, size_t *bound) {
    size_t count = 0;
    bound[0] = 0;
    while (bound[count] < w.n) {
        bound[count + 1] = bound[count] + longest_at(w, order, bound[count]);
        count++;
    }
    return count;
}

/* The groups of the factors between these bounds; `place` is that of the string's first byte. */
static size_t grouped(bytes w, const size_t *bound, size_t factor_count, size_t place, uint16_t *group) {
    size_t count = 0;
    for (size_t k = 0; k < factor_count; k++) {
        bytes factor = slice(w, bound[k], bound[k + 1]);
        if (k > 0 && same(slice(w, bound[k - 1], bound[k]), factor)) {
            group[3 * count - 1]++;
            continue;
        }
        group[3 * count] = (uint16_t)(place + bound[k]);
        group[3 * count + 1] = (uint16_t)factor.n;
        group[3 * count + 2] = 1;
        count++;
    }
    return count;
}

size_t naive_groups(bytes w, bytes order, size_t place, uint16_t *group) {
    size_t bound[SHORT + 1];
    size_t count = factors(w, order, bound);
    return grouped(w, bound, count, place, group);
}

static void longest_words(bytes w, bytes order, size_t *length, size_t *starts, uint16_t *start) {
    *starts = 0;
    for (*length = w.n; *length > 0; (*length)--) {
        for (size_t i = 0; i + *length <= w.n; i++) {
            if (is_lyndon(slice(w, i, i + *length), order)) start[(*starts)++] = (uint16_t)i;
        }
        if (*starts > 0) return;
    }
}

/* The smallest start of a rotation that no other is smaller than. */
static size_t rotation(bytes w, bytes order) {
    uint8_t twice[2 * SHORT];
    memcpy(twice, w.at, w.n);
    memcpy(twice + w.n, w.at, w.n);
    size_t best = 0;
    for (size_t k = 1; k < w.n; k++) {
        if (smaller((bytes){ twice + k, w.n }, (bytes){ twice + best, w.n }, order)) best = k;
    }
    return best;
}

/* Whether the string is its first bytes over and over, two or more times. */
static bool repeated(bytes w) {
    for (size_t size = 1; 2 * size <= w.n; size++) {
        size_t k = size;
        while (k + size <= w.n && same(slice(w, 0, size), slice(w, k, k + size))) k += size;
        if (k == w.n) return true;
    }
    return false;
}

/* Parent, all of u, all of v, where v is the longest proper suffix that is a Lyndon word; answers the number of nodes. */
static size_t tree(bytes w, bytes order, size_t place, uint16_t *node) {
    node[0] = (uint16_t)place;
    node[1] = (uint16_t)w.n;
    if (w.n == 1) return 1;
    size_t cut = 1;
    while (!is_lyndon(slice(w, cut, w.n), order)) cut++;
    size_t left = tree(slice(w, 0, cut), order, place, node + 2);
    return 1 + left + tree(slice(w, cut, w.n), order, place + cut, node + 2 + 2 * left);
}

facts naive_facts(bytes w, bytes order) {
    facts f = { .groups = 0 };
    size_t bound[SHORT + 1];
    f.groups = naive_groups(w, order, 0, f.group);
    for (size_t i = 0; i < w.n; i++) {
        f.array[i] = (uint16_t)longest_at(w, order, i);
        size_t count = factors(slice(w, 0, i + 1), order, bound);
        f.last[i] = (uint16_t)(bound[count] - bound[count - 1]);
    }
    longest_words(w, order, &f.length, &f.starts, f.start);
    f.rotation = rotation(w, order);
    f.repeated = repeated(w);
    f.lyndon = is_lyndon(w, order);
    if (f.lyndon) f.nodes = tree(w, order, 0, f.node);
    return f;
}

/* The word of a group, which is three numbers. */
static bytes word_at(bytes w, const uint16_t *group) {
    return slice(w, group[0], group[0] + group[1]);
}

size_t naive_listing(bytes w, const facts *f, char *text) {
    char *at = text + sprintf(text, "start,length,power,word,shared\r\n");
    for (size_t k = 0; k < f->groups; k++) {
        const uint16_t *group = f->group + 3 * k;
        bytes word = word_at(w, group);
        size_t shared = k + 1 < f->groups ? naive_shared(word, word_at(w, group + 3)) : 0;
        at += sprintf(at, "%u,%u,%u,", group[0], group[1], group[2]);
        for (size_t i = 0; i < word.n; i++) at += sprintf(at, "%02X", word.at[i]);
        at += sprintf(at, ",%zu\r\n", shared);
    }
    return (size_t)(at - text);
}

/* The header of a block that fills all bytes but for a line feed, or all of them, is printed for each number of digits and compared. */
bool naive_extent(bytes block, size_t *place, size_t *count) {
    for (size_t digits = 1; digits <= 9; digits++) {
        for (size_t close = 0; close <= 1; close++) {
            char header[SHORT];
            if (block.n < 2 + digits + close) continue;
            *place = 2 + digits;
            *count = block.n - *place - close;
            int length = sprintf(header, "#%zu%0*zu", digits, (int)digits, *count);
            bool closed = close == 0 || block.at[block.n - 1] == '\n';
            if (closed && (size_t)length == *place && memcmp(header, block.at, *place) == 0) return true;
        }
    }
    return false;
}

size_t naive_block(bytes w, uint8_t *block) {
    char count[SHORT], header[2 * SHORT];
    int digits = sprintf(count, "%zu", w.n);
    int length = sprintf(header, "#%d%s", digits, count);
    memcpy(block, header, (size_t)length);
    memcpy(block + length, w.at, w.n);
    return (size_t)length + w.n;
}

/* The largest c for which the first c factors of the stored pattern end at or before `from` and are the edited one's first c. */
static size_t kept_of(bytes w, const size_t *old, size_t olds, bytes edited, const size_t *new, size_t news, size_t from) {
    size_t c = 0;
    while (c < olds && c < news && old[c + 1] <= from) {
        if (!same(slice(w, old[c], old[c + 1]), slice(edited, new[c], new[c + 1]))) break;
        c++;
    }
    return c;
}

naive_edited naive_edit(bytes w, bytes order, size_t from, size_t to, bytes block) {
    naive_edited e = { .told = { .refusal = 0 } };
    uint8_t content[SHORT];
    memcpy(content, w.at, from);
    memcpy(content + from, block.at, block.n);
    memcpy(content + from + block.n, w.at + to, w.n - to);
    bytes edited = { content, from + block.n + w.n - to };
    size_t old[SHORT + 1], new[SHORT + 1];
    size_t olds = factors(w, order, old), news = factors(edited, order, new);
    size_t kept = kept_of(w, old, olds, edited, new, news, from);
    /* the first bound at or behind the block's end; the end of the edited pattern is one */
    size_t until = kept;
    while (new[until] < from + block.n) until++;
    e.told.kept = kept;
    e.told.resume = new[until] - (from + block.n) + to;
    e.told.groups = grouped(edited, new + kept, until - kept, 0, e.middle);
    longest_words(edited, order, &e.told.length, &e.told.starts, e.start);
    return e;
}
