/* The definitions for short strings under any order, tried out one by one: slow, and right at sight.
 * Nothing here knows how the engine works; strings and results of up to SHORT bytes fit. */
#ifndef NAIVE_H
#define NAIVE_H

#include "words.h"

#include "lyndon.h"

/* The length of the longest string that both, of any length, begin with. */
size_t naive_shared(bytes first, bytes second);

/* Which of two strings of any length is smaller: 1 the first, 2 the second, 0 where they are the same. */
size_t naive_smaller(bytes first, bytes second, bytes order);

/* What there is to say of a pattern under an order. */
typedef struct {
    size_t groups; /* number of groups; three numbers each */
    uint16_t group[3 * SHORT];
    uint16_t array[SHORT];
    uint16_t last[SHORT];
    size_t length; /* of the longest Lyndon words, and their starts */
    size_t starts;
    uint16_t start[SHORT];
    size_t rotation;
    bool repeated; /* a shorter string two or more times */
    bool lyndon;
    size_t nodes; /* number of nodes, 0 where there is no tree; two numbers each */
    uint16_t node[4 * SHORT];
} facts;

facts naive_facts(bytes w, bytes order);

/* Writes the groups of the string, whose first byte stands at `place`, and answers their number. */
size_t naive_groups(bytes w, bytes order, size_t place, uint16_t *group);

/* Writes the listing of a pattern with these groups, and answers its length; a line of it has at most 2 * SHORT + 20 bytes. */
size_t naive_listing(bytes w, const facts *f, char *text);

/* Whether the bytes, of any number, are a definite length block; the place and count of the bytes within it. */
bool naive_extent(bytes block, size_t *place, size_t *count);

/* Writes the block of a pattern, of any length, and answers its length. */
size_t naive_block(bytes w, uint8_t *block);

/* The answer to an edit that nothing refuses, and its rows. */
typedef struct {
    lyndon_edit_answer told;
    uint16_t middle[3 * SHORT];
    uint16_t start[SHORT];
} naive_edited;

naive_edited naive_edit(bytes w, bytes order, size_t from, size_t to, bytes block);

#endif
