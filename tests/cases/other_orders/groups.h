/* The groups of cases under other orders, in the order in which they run. Each file says what its group holds. */
#ifndef GROUPS_H
#define GROUPS_H

#include "given.h"

void run_patterns(bytes order);
void run_parts(bytes order);
void run_comparisons(bytes order);
void run_edits(bytes order);
void run_tables(bytes order);
void run_no_order(void);

#endif
