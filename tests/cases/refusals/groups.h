/* The groups of cases about refusals, in the order in which they run. Each file says what its group holds. */
#ifndef GROUPS_H
#define GROUPS_H

#include "given.h"

void run_short_rows(bytes order);
void run_empty(bytes order);
void run_positions(bytes order);
void run_wrong_tables(bytes order);
void run_repeated(bytes order);
void run_several(bytes order);
void run_limits(bytes order);
void run_wanted(bytes order);

#endif
