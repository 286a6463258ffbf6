/* Prints to standard output: headings, words, rows and orders, and each number after its name. Nothing here makes a call. */
#ifndef PRINT_H
#define PRINT_H

#include "given.h"

void print_heading(const char *title);

void print_text(const char *s);

/* As in ` count 3`. */
void print_number(const char *name, size_t n);

/* A word: `empty`, its bytes, or how many there are. */
void print_word(bytes s);

/* A word, with the digest of one that is not printed whole. */
void print_content(bytes s);

/* The order of a call. Byte order goes without saying. */
void print_order(bytes order);

/* A row after its name: `empty`, its entries, or how many there are and their digest. */
void print_row(const char *name, table row);

/* What most answers begin with. */
void print_refusal(uint8_t refusal);

#endif
