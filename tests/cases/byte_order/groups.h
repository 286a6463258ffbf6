/* The groups of cases in byte order, in the order in which they run. Each file says what its group holds. */
#ifndef GROUPS_H
#define GROUPS_H

#include "given.h"

void run_sheet(bytes order);
void run_sources(bytes order);
void run_wanted(bytes order);
void run_comparisons(bytes order);
void run_edits(bytes order);
void run_blocks(void);

#endif
