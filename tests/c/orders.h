/* Orders of the bytes that the tests take, and rows that are none. */
#ifndef ORDERS_H
#define ORDERS_H

#include "words.h"

/* A row of ranks, what to call it, and what refuses it: 0 where it is an order, else 13. */
typedef struct {
    const char *name;
    bytes ranks;
    uint8_t refusal;
} ranking;

/* Byte order, its reverse, and one without rule. */
enum { BYTE_ORDER, REVERSE, SHUFFLED, ORDERS };

extern ranking orders[ORDERS];

/* Rows that 13 refuses: of another length, or with a rank twice. */
#define NO_ORDERS 8

extern ranking no_orders[NO_ORDERS];

/* Writes all of them; to be called before they are used. */
void prepare_orders(void);

/* Writes an order without rule. */
void shuffle(chance *c, uint8_t *ranks);

/* The number of the first refusal where this one applies too. */
uint8_t first_refusal(const ranking *o, uint8_t number);

/* The byte that has a rank. */
uint8_t byte_of(bytes ranks, size_t rank);

#endif
