/* Strings on which the calls behave differently, of any length. */
#ifndef FAMILIES_H
#define FAMILIES_H

#include <stddef.h>
#include <stdint.h>

#define FAMILIES 11

/* Fills `at` with the first n bytes of a family. */
void family(size_t which, uint8_t *at, size_t n);

#endif
