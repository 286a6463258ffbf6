/* The pattern engine for C (x86-64 Linux). Two archives have its functions; `rt lib` in crates/NAME writes libNAME.a to out/ there:
 *   - liblyndon_edit_c.a has lyndon_edit and lyndon_edit_interface;
 *   - liblyndon_c.a has all others. Neither needs the other, and a program may link both.
 *
 * Every function answers a refusal's number, 0 where nothing is refused: alone, or for an edit in a struct. Only lyndon_longest_word has none,
 * and the two that tell the interface's number refuse nothing. Positions count from 0. Nothing is asked of the values: any pattern, order,
 * position, table content and length is answered.
 *
 * An order has LYNDON_ORDER entries, each of 0 to 255 once: entry b is the rank of byte b. Every function that compares bytes takes the order
 * right after the string, and smaller means smaller rank throughout: factors, tables, words, tree, rotation and edits are those of the order,
 * and a table is lent with the order it was made under. In the order that lyndon_byte_order writes, where each byte's rank is its value,
 * bytes compare as unsigned numbers.
 *
 * A slice is two arguments, a pointer to its first entry and its length in entries. What C must see to, since nothing tests it:
 *   - no pointer is NULL, not even with length 0, and each is aligned for its type;
 *   - the entries behind a pointer are there, and they are initialised (a row that is only written, and a number, too);
 *   - what is written overlaps nothing else that is passed to the same call.
 *
 * A row that a result is written to may be longer than the result: the entries behind it keep their values. A refused call leaves every
 * row as it was and sets the numbers beside it to 0 (false).
 */
#ifndef LYNDON_H
#define LYNDON_H

#include <stdbool.h>
#include <stddef.h>
#include <stdint.h>

#ifdef __cplusplus
extern "C" {
#endif

/* The longest pattern, stored or edited, which is also the longest string of a comparison; the longest block of an edit; the longest word of a
 * tree, in bytes; the longest wanted Lyndon array, in entries. */
#define LYNDON_MAX_PATTERN 16384
#define LYNDON_MAX_BLOCK 256
#define LYNDON_MAX_TREE 256
#define LYNDON_MAX_WANTED 256

/* The entries of an order. */
#define LYNDON_ORDER 256

/* The number of this interface. Each archive answers it too, so that a program can tell whether header and archives go together. */
#define LYNDON_INTERFACE 1

uint32_t lyndon_interface(void);
uint32_t lyndon_edit_interface(void);

/* Rows of these lengths are enough for every pattern and every edit: the bytes of a listing and of a definite length block, the middle
 * groups of an edit. */
#define LYNDON_MAX_LISTING (32 + 20 * LYNDON_MAX_PATTERN)     /* 327712 */
#define LYNDON_MAX_DEFINITE_BLOCK (7 + LYNDON_MAX_PATTERN)    /* 16391 */
#define LYNDON_MAX_MIDDLE (15 + LYNDON_MAX_BLOCK + 1)         /* 272 */

/* The refusals. Of two that apply, the smaller number is answered, but 9 and 13 before all others (no function has both), and 11 and 12
 * before 8. */
#define LYNDON_ACCEPTED 0
#define LYNDON_PATTERN_TOO_LONG 1   /* over LYNDON_MAX_PATTERN bytes; in a comparison, either string or both */
#define LYNDON_PAST_END 2           /* a position past the end of the pattern, whose length itself is a position; or `from` > `to` */
#define LYNDON_BLOCK_TOO_LONG 3     /* the block of an edit has over LYNDON_MAX_BLOCK bytes */
#define LYNDON_EDITED_TOO_LONG 4    /* the edited pattern has over LYNDON_MAX_PATTERN bytes */
#define LYNDON_NOT_THE_TABLE 5      /* a lent table is shorter than the pattern, or one of its first pattern_len entries is not that of the order */
#define LYNDON_WORD_TOO_LONG 6      /* over LYNDON_MAX_TREE bytes */
#define LYNDON_NOT_LYNDON 7         /* the string is no Lyndon word */
#define LYNDON_ROW_TOO_SHORT 8      /* the result has more entries than the row */
#define LYNDON_NOT_A_BLOCK 9        /* the bytes are no definite length block */
#define LYNDON_REPEATED 10          /* the pattern is a shorter string repeated two or more times */
#define LYNDON_WANTED_TOO_LONG 11   /* the wanted Lyndon array has over LYNDON_MAX_WANTED entries */
#define LYNDON_NO_PATTERN 12        /* no pattern of bytes has the wanted Lyndon array */
#define LYNDON_NOT_AN_ORDER 13      /* the order has not exactly LYNDON_ORDER entries, or not each of 0 to 255 once */

/* Byte order: writes 0, 1, .. 255 to the row. Sets *count to LYNDON_ORDER, the number of entries. Row: LYNDON_ORDER bytes. Refusal 8. */
uint8_t lyndon_byte_order(uint8_t *order, size_t order_len, size_t *count);

/* The groups of equal neighbouring factors: start, length of one factor, power. Sets *count to the number of groups.
 * Row: 3 entries a group; 3 * pattern_len are always enough, and with so many the pattern is scanned once: in a shorter row the groups are
 * counted first. Refusals 13, 1, 8. */
uint8_t lyndon_factor(const uint8_t *pattern, size_t pattern_len, const uint8_t *order, size_t order_len,
                      uint16_t *groups, size_t groups_len, size_t *count);

/* The Lyndon array: entry i is the length of the longest Lyndon word that starts at i. Sets *count to pattern_len.
 * Row: pattern_len entries. Refusals 13, 1, 8. */
uint8_t lyndon_array(const uint8_t *pattern, size_t pattern_len, const uint8_t *order, size_t order_len,
                     uint16_t *table, size_t table_len, size_t *count);

/* The last factors: entry q - 1 is the length of the last factor of the first q bytes. Sets *count to pattern_len.
 * Row: pattern_len entries. Refusals 13, 1, 8. */
uint8_t lyndon_last_factors(const uint8_t *pattern, size_t pattern_len, const uint8_t *order, size_t order_len,
                            uint16_t *table, size_t table_len, size_t *count);

/* Writes a pattern whose Lyndon array, under the order, is the wanted one to `pattern`, the row; which of them, where there are several, is
 * left free. Sets *count to wanted_len. Row: wanted_len bytes; no entries give the empty pattern. Refusals 13, 11, 12, 8: an entry of 0, or
 * one that reaches past the end of the array, is a case of 12. */
uint8_t lyndon_realise_array(const uint16_t *wanted, size_t wanted_len, const uint8_t *order, size_t order_len,
                             uint8_t *pattern, size_t pattern_len, size_t *count);

/* The starts of all longest Lyndon words in the pattern. Sets *size to their length and *count to the number of starts.
 * Row: an entry for each start; pattern_len are always enough. Where all longest words are equal neighbours the pattern is scanned once, in a
 * row of any length, and else twice. Refusals 13, 1, 8. */
uint8_t lyndon_longest_words(const uint8_t *pattern, size_t pattern_len, const uint8_t *order, size_t order_len,
                             uint16_t *starts, size_t starts_len, size_t *size, size_t *count);

/* Sets *start to where the first of the longest Lyndon words stands in the pattern, and *size to its length. Both are 0 where the pattern is
 * empty, and where 13 or 1 applies: these have no number here. */
void lyndon_longest_word(const uint8_t *pattern, size_t pattern_len, const uint8_t *order, size_t order_len, size_t *start, size_t *size);

/* Sets *yes to whether the string is a Lyndon word; the empty one is none. Refusals 13, 1. */
uint8_t lyndon_is_lyndon(const uint8_t *word, size_t word_len, const uint8_t *order, size_t order_len, bool *yes);

/* Sets *start to the start of the least rotation, 0 for the empty pattern. That of a pattern that is accepted and not empty starts at this
 * place alone; that of a shorter string repeated starts at several, so 10 refuses it. Refusals 13, 1, 10. */
uint8_t lyndon_least_rotation(const uint8_t *pattern, size_t pattern_len, const uint8_t *order, size_t order_len, size_t *start);

/* The nodes of a Lyndon word's tree: start, length. Sets *count to their number, 2 * word_len - 1.
 * Row: 4 * word_len - 2 entries. Refusals 13, 6, 7, 8; the empty word is refused by 7. */
uint8_t lyndon_tree(const uint8_t *word, size_t word_len, const uint8_t *order, size_t order_len,
                    uint16_t *nodes, size_t nodes_len, size_t *count);

/* The groups of the factors of the first `end` bytes, given the pattern's last factors; as lyndon_factor writes them.
 * Row: 3 entries a group; 3 * end are always enough. Refusals 13, 1, 2, 5, 8. */
uint8_t lyndon_factor_prefix(const uint8_t *pattern, size_t pattern_len, const uint8_t *order, size_t order_len,
                             const uint16_t *last_factors, size_t last_factors_len, uint16_t *groups, size_t groups_len,
                             size_t end, size_t *count);

/* The groups of the factors of the bytes from `start` on, given the pattern's Lyndon array; starts are places in the whole pattern.
 * Row: 3 entries a group; 3 * (pattern_len - start) are always enough. Refusals 13, 1, 2, 5, 8. */
uint8_t lyndon_factor_suffix(const uint8_t *pattern, size_t pattern_len, const uint8_t *order, size_t order_len,
                             const uint16_t *lyndon_array, size_t lyndon_array_len, uint16_t *groups, size_t groups_len,
                             size_t start, size_t *count);

/* Sets *shared to the length of the longest string of bytes that both begin with, and *smaller to which of them is smaller under the order:
 * 1 the first, 2 the second, 0 where they are the same string. The smaller has the smaller rank at the first difference; a proper prefix is
 * smaller than the longer string. Refusals 13, 1: 1 if either is too long. */
uint8_t lyndon_compare(const uint8_t *first, size_t first_len, const uint8_t *second, size_t second_len,
                       const uint8_t *order, size_t order_len, size_t *shared, uint8_t *smaller);

/* The listing of the pattern's groups as CSV: `start,length,power,word,shared`, then a line for each group, with the factor's bytes in
 * upper-case hexadecimal and the length of the longest string of bytes that this factor and that of the next group both begin with, 0 on the
 * last line; carriage return and line feed close each line, and no zero byte is added. Sets *count to the number of bytes.
 * Row: a byte for each of the listing's; 32 + 20 * pattern_len are always enough, LYNDON_MAX_LISTING for every pattern. With 32 + 20 *
 * pattern_len the pattern is scanned once: in a shorter row the listing is measured first. Refusals 13, 1, 8. */
uint8_t lyndon_write_listing(const uint8_t *pattern, size_t pattern_len, const uint8_t *order, size_t order_len,
                             uint8_t *text, size_t text_len, size_t *count);

/* Where the bytes of a definite length block of IEEE 488.2 are: sets *place to the place of the first within the block and *count to their
 * number. The block is `#`, a digit 1 to 9 that says how many digits follow, those digits, leading zeros allowed, which give the number of
 * bytes, exactly that many bytes, at most one line feed, and nothing else; the indefinite form `#0` is none. Refusals 9, 1: a block that
 * holds over LYNDON_MAX_PATTERN bytes is refused by 1, and what only says that it does, by 9. */
uint8_t lyndon_read_block(const uint8_t *bytes, size_t bytes_len, size_t *place, size_t *count);

/* The pattern as such a block, with the fewest digits and no line feed; `#10` where it is empty. Sets *count to the number of bytes.
 * Row: 2 + (decimal digits of pattern_len) + pattern_len bytes, 0 having one digit; LYNDON_MAX_DEFINITE_BLOCK are always enough.
 * Refusals 1, 8. */
uint8_t lyndon_write_block(const uint8_t *pattern, size_t pattern_len, uint8_t *bytes, size_t bytes_len, size_t *count);

/* A group in a row of records: start, length of one factor, power. */
typedef struct lyndon_group {
    uint16_t start;
    uint16_t length;
    uint16_t power;
} lyndon_group;

/* The answer to an edit. Beside a refusal the five numbers are 0. */
typedef struct lyndon_edit_answer {
    uint8_t refusal;
    size_t kept;   /* the largest number of leading factors of the stored pattern that end at or before `from` and are the edited one's too */
    size_t resume; /* the earliest position in the stored pattern, at or after `to`, from which on the factors are those of the stored ending */
    size_t groups; /* the number of middle groups written: the factors between the kept and the resumed ones, grouped among themselves */
    size_t length; /* the length of the longest Lyndon words in the edited pattern, 0 where it is empty */
    size_t starts; /* the number of their starts written */
} lyndon_edit_answer;

/* The answer to an edit: the bytes from `from` up to `to` are taken out and the block is put in. Both tables are the stored pattern's;
 * the starts of the groups and of the longest words are places in the edited one, whose order is that of the stored one.
 * Refusals 13, 1, 2, 3, 4, 5, 8.
 * Row `middle`: a record for each group; (binary digits of `from`) + block_len + 1 are always enough, 0 having no digit, and so are
 * LYNDON_MAX_MIDDLE. Row `starts`: an entry for each start; as many as the edited pattern has bytes are always enough. The edited pattern is
 * scanned at most twice, in rows of any length. */
lyndon_edit_answer lyndon_edit(const uint8_t *pattern, size_t pattern_len, const uint8_t *order, size_t order_len,
                               const uint16_t *lyndon_array, size_t lyndon_array_len,
                               const uint16_t *last_factors, size_t last_factors_len, size_t from, size_t to,
                               const uint8_t *block, size_t block_len, lyndon_group *middle, size_t middle_len,
                               uint16_t *starts, size_t starts_len);

#ifdef __cplusplus
}
#endif

#endif
