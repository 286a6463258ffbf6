/* The orders of the cases. Each is written to a space of LYNDON_ORDER bytes, which the next may overwrite. */
#ifndef ORDERS_H
#define ORDERS_H

#include "given.h"

/* Each rank is the one before it and a step, modulo 256: an order where the step is odd. */
bytes stepping(uint8_t *space, uint8_t first, uint8_t step);

/* Byte order, but the letters b, c, a have the ranks that a, b, c have there, and 7F and 80 change places. */
bytes moved(uint8_t *space);

#endif
