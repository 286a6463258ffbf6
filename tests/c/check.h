/* Counting of cases, and rows lent to the engine inside longer ones that must keep their bytes.
 * Nothing here knows what a call should answer. */
#ifndef CHECK_H
#define CHECK_H

#include <stdbool.h>
#include <stddef.h>
#include <stdint.h>

/* A string of bytes. */
typedef struct {
    const uint8_t *at;
    size_t n;
} bytes;

/* The bytes of a literal without its closing zero. */
#define LITERAL(s) ((bytes){ (const uint8_t *)(s), sizeof(s) - 1 })

/* The first part counts on from these, which the caller has counted already. */
void counted(size_t passed, size_t failed);

/* Begins a part: what runs until the next one is counted under its name. */
void part(const char *name);

/* Counts one case of the part; one that failed is printed, in the format of printf. */
void check(bool good, const char *format, ...) __attribute__((format(printf, 2, 3)));

/* Closes the last part and prints the counts of all; the status to exit with. */
int finish(void);

/* A row of `size` bytes, aligned for every type, with more bytes before and behind it. */
typedef struct {
    uint8_t *row;
    size_t size;
} lent;

/* A row for a result: each byte is at least A0, so that no entry of two bytes and no letter of the tests looks like one. */
lent lend(size_t size);

/* A row that is to be read. */
lent lend_copy(const void *content, size_t size);

/* Whether the result fills the front of a row from `lend` and the rest, before and behind it too, is as it was lent. Frees the row. */
bool holds(lent l, const void *result, size_t size);

/* The same of a row from `lend_copy` that must not have changed. */
bool unchanged(lent l, const void *content);

#endif
