/* Rows lent to a call, as lend.h says. A call that writes beside its row is seen by what it changes there, and its line is then not the one
 * expected. */
#include "lend.h"

#include "print.h"

#include <stdbool.h>
#include <stdlib.h>
#include <string.h>

/* What each byte of a buffer holds before a call. */
#define BLANK '.'

/* The longest rows, and the entries before one; as many or more are behind it. */
#define MOST_NUMBERS (LYNDON_MAX_PATTERN + 1)
#define MOST_BYTES (LYNDON_MAX_DEFINITE_BLOCK + 2)
#define MOST_GROUPS LYNDON_MAX_MIDDLE
#define BEFORE 8

static uint16_t numbers[BEFORE + MOST_NUMBERS + BEFORE];
static uint8_t buffer[BEFORE + MOST_BYTES + BEFORE];
static lyndon_group groups[BEFORE + MOST_GROUPS + BEFORE];

#define LENGTH(space) (sizeof(space) / sizeof *(space))

uint16_t *lend_numbers(size_t room) {
    if (room > MOST_NUMBERS) abort();
    for (size_t k = 0; k < LENGTH(numbers); k++) numbers[k] = OLD;
    return numbers + BEFORE;
}

uint8_t *lend_buffer(size_t room) {
    if (room > MOST_BYTES) abort();
    memset(buffer, BLANK, sizeof buffer);
    return buffer + BEFORE;
}

lyndon_group *lend_groups(size_t room) {
    if (room > MOST_GROUPS) abort();
    for (size_t k = 0; k < LENGTH(groups); k++) groups[k] = (lyndon_group){ OLD, OLD, OLD };
    return groups + BEFORE;
}

/* Whether place k of a space is before or behind a row. */
static bool beside(size_t k, size_t room) {
    return k < BEFORE || k >= BEFORE + room;
}

static void tell(bool kept) {
    if (!kept) print_text(" (changed beside the row)");
}

table left_numbers(size_t room) {
    bool kept = true;
    for (size_t k = 0; k < LENGTH(numbers); k++) kept = kept && (!beside(k, room) || numbers[k] == OLD);
    tell(kept);
    return (table){ numbers + BEFORE, room };
}

bytes left_buffer(size_t room) {
    bool kept = true;
    for (size_t k = 0; k < LENGTH(buffer); k++) kept = kept && (!beside(k, room) || buffer[k] == BLANK);
    tell(kept);
    return (bytes){ buffer + BEFORE, room };
}

table left_groups(size_t room) {
    static uint16_t flat[3 * MOST_GROUPS];
    bool kept = true;
    for (size_t k = 0; k < LENGTH(groups); k++) {
        lyndon_group g = groups[k];
        kept = kept && (!beside(k, room) || (g.start == OLD && g.length == OLD && g.power == OLD));
    }
    tell(kept);
    for (size_t k = 0; k < room; k++) {
        flat[3 * k] = groups[BEFORE + k].start;
        flat[3 * k + 1] = groups[BEFORE + k].length;
        flat[3 * k + 2] = groups[BEFORE + k].power;
    }
    return (table){ flat, 3 * room };
}
