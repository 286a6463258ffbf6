/* The parts of the C test, in the order in which they run; each file says what its part holds. */
#ifndef TESTS_H
#define TESTS_H

#include "calls.h"

void test_header(void);
void test_example(void);
void test_no_order(void);
void test_refusals(void);
void test_limits(void);
void test_words(void);
void test_blocks(void);
void test_edits(void);
void test_random(void);
void test_wanted(void);
void test_compare(void);

#endif
