/* Every function of lyndon.h made once, and whether its answer, its rows and what it only reads are as they should be.
 * What they should be is left to the tests. */
#ifndef CALLS_H
#define CALLS_H

#include "check.h"

#include "lyndon.h"

/* The functions that write one row, by one list of arguments. */
typedef enum { FACTOR, ARRAY, LAST_FACTORS, LONGEST_WORDS, TREE, LISTING, BLOCK, FILLINGS } filling;

/* The functions that ask for a table and a position. */
typedef enum { PREFIX, SUFFIX } side;

extern const char *const filling_name[FILLINGS];
extern const char *const side_name[2];

/* The refusal's number, and the numbers set; the second is 0 where a function sets one. */
typedef struct {
    uint8_t refusal;
    size_t number[2];
} told;

/* The answer of a refused call. */
#define REFUSED(n) ((told){ (n), { 0, 0 } })

/* A result: its entries, and their number. */
typedef struct {
    const void *entries;
    size_t n;
} result;

#define NOTHING ((result){ NULL, 0 })

/* A table as it is lent. */
typedef struct {
    const uint16_t *at;
    size_t n;
} table;

/* What an edit is given. */
typedef struct {
    bytes pattern;
    bytes order;
    table array;
    table last;
    size_t from;
    size_t to;
    bytes block;
} given;

/* What an edit is to answer; the middle groups are three numbers each, as they lie in a record. */
typedef struct {
    lyndon_edit_answer told;
    const uint16_t *middle;
    const uint16_t *starts;
} edited;

/* Whether both archives tell this number. */
bool tells_interface(uint32_t number);

bool writes_byte_order(size_t room, told want, result r);

/* The order of a function that gets none. */
#define NO_ORDER ((bytes){ NULL, 0 })

/* A function that writes one row of `room` entries; lyndon_write_block gets no order. */
bool fills(filling call, bytes w, bytes order, size_t room, told want, result r);

/* The same with an exact row, longer ones and, where there is a result, rows too short, which are refused by 8. */
bool fills_any_row(filling call, bytes w, bytes order, told want, result r);

bool tells_lyndon(bytes w, bytes order, uint8_t refusal, bool yes);
bool tells_rotation(bytes w, bytes order, uint8_t refusal, size_t start);
bool tells_longest_word(bytes w, bytes order, size_t start, size_t size);

/* The numbers are the length of the common beginning, and 1 or 2 for the smaller string, 0 for equal ones. */
bool compares(bytes first, bytes second, bytes order, told want);

/* The numbers are the place and the count of the bytes within the block. */
bool reads_block(bytes block, told want);

/* The pattern that is written goes to `pattern` too, since which one it is is left free; the bytes behind it are looked at here. */
bool realises(table wanted, bytes order, size_t room, told want, uint8_t *pattern);

bool takes_part(side s, bytes w, bytes order, table t, size_t position, size_t room, told want, result r);

/* With rows of these lengths, in records and in starts. */
bool answers_edit(const given *g, size_t middle_room, size_t starts_room, const edited *want);

#endif
