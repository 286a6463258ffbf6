/* A function for each call of lyndon.h: it prints the call and what is given, makes the call with a row of `room` entries, or a buffer of `room`
 * bytes, and prints the answer with what the call leaves there. Which cases are run is left to the programs. */
#ifndef SHOW_H
#define SHOW_H

#include "given.h"

void show_byte_order(size_t room);
void show_factor(bytes pattern, bytes order, size_t room);
void show_array(bytes pattern, bytes order, size_t room);
void show_last_factors(bytes pattern, bytes order, size_t room);
void show_tree(bytes word, bytes order, size_t room);
void show_longest_words(bytes pattern, bytes order, size_t room);

/* The pattern in the buffer is left free, so its Lyndon array under the order is printed for it, and then the bytes behind it. */
void show_realise_array(table wanted, bytes order, size_t room);

/* One call: the word itself, and its place. */
void show_longest_word(bytes pattern, bytes order);
void show_longest_word_place(bytes pattern, bytes order);

void show_is_lyndon(bytes word, bytes order);
void show_least_rotation(bytes pattern, bytes order);
void show_compare(bytes first, bytes second, bytes order);

void show_factor_prefix(bytes pattern, bytes order, table last_factors, size_t end, size_t room);
void show_factor_suffix(bytes pattern, bytes order, table array, size_t start, size_t room);

void show_write_listing(bytes pattern, bytes order, size_t room);
void show_read_block(bytes block);
void show_write_block(bytes pattern, size_t room);

/* Rows have room for so many groups and places; the tables are the pattern's own, or are given. */
void show_edit(bytes pattern, bytes order, size_t from, size_t to, bytes block, size_t groups, size_t places);
void show_edit_with(bytes pattern, bytes order, table array, table last_factors, size_t from, size_t to, bytes block, size_t groups,
                    size_t places);

#endif
