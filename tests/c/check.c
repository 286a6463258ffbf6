/* Counting of cases and lent rows, as check.h says. What is compared, and with what, is left to the tests. */
#include "check.h"

#include <stdarg.h>
#include <stdio.h>
#include <stdlib.h>
#include <string.h>

#define GUARD 32
#define SHOWN 10 /* failed cases of a part that are printed */

static size_t all_passed, all_failed;
static size_t passed, failed;
static const char *title;

static void close_part(void) {
    if (title == NULL) return;
    if (passed + failed == 0) failed = 1;
    printf("%s: %zu cases%s", title, passed + failed, failed == 0 ? ", ok\n" : "");
    if (failed > 0) printf(", %zu FAILED\n", failed);
    all_passed += passed;
    all_failed += failed;
    passed = failed = 0;
}

void counted(size_t before_passed, size_t before_failed) {
    all_passed = before_passed;
    all_failed = before_failed;
}

void part(const char *name) {
    close_part();
    title = name;
}

void check(bool good, const char *format, ...) {
    if (good) {
        passed++;
        return;
    }
    failed++;
    if (failed > SHOWN) return;
    va_list words;
    va_start(words, format);
    fputs("WRONG: ", stdout);
    vprintf(format, words);
    putchar('\n');
    va_end(words);
}

int finish(void) {
    close_part();
    printf("%zu passed, %zu failed\n", all_passed, all_failed);
    return all_failed > 0;
}

static uint8_t canary(size_t k) {
    return (uint8_t)(0xA0 + k % 80);
}

lent lend(size_t size) {
    uint8_t *buffer = malloc(size + 2 * GUARD);
    if (buffer == NULL) abort();
    for (size_t k = 0; k < size + 2 * GUARD; k++) buffer[k] = canary(k);
    return (lent){ buffer + GUARD, size };
}

lent lend_copy(const void *content, size_t size) {
    lent l = lend(size);
    if (size > 0) memcpy(l.row, content, size);
    return l;
}

bool holds(lent l, const void *result, size_t size) {
    uint8_t *buffer = l.row - GUARD;
    bool good = size <= l.size && (size == 0 || memcmp(l.row, result, size) == 0);
    for (size_t k = 0; k < l.size + 2 * GUARD; k++) {
        bool written = k >= GUARD && k < GUARD + size;
        good = good && (written || buffer[k] == canary(k));
    }
    free(buffer);
    return good;
}

bool unchanged(lent l, const void *content) {
    return holds(l, content, l.size);
}
