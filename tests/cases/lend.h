/* Rows lent to a call out of longer spaces: each entry holds 7777, and each byte of a buffer `.`, before the call. There is a space for each
 * kind of row, so that a call can be lent one of each; the next row of the kind overwrites it. */
#ifndef LEND_H
#define LEND_H

#include "given.h"

uint16_t *lend_numbers(size_t room);
uint8_t *lend_buffer(size_t room);
lyndon_group *lend_groups(size_t room);

/* What the call has left in the row lent last, whose length is `room`; a group is three numbers. Where the call has changed an entry before or
 * behind the row, this is printed. */
table left_numbers(size_t room);
bytes left_buffer(size_t room);
table left_groups(size_t room);

#endif
