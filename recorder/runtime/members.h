/* For tests (CILKCHECK_MEMBERS=FILE): which bytes stand behind which cell of which trace, a line `TRACE CELL ADDRESS LIFE` each. What is at
   an address is another byte in each of its lives. */
#ifndef CILKCHECK_MEMBERS_H
#define CILKCHECK_MEMBERS_H
#include "recorder.h"

/* These bytes took the edge (histories.c), and with it left the one of `taken_back`, an edge's number and 1. */
void members_pass(uint32_t edge, uint32_t taken_back, uintptr_t address, uint32_t bytes);
/* The edges are given up: whatever took one had its pairs. */
void members_strand_end(void);
/* The lives of these bytes end. */
void members_end(uintptr_t from, uintptr_t to);
/* The pair stands in that trace under that cell; so does a byte of a raw recording, in that life. */
void members_cell(uint32_t trace, uint32_t cell, uint32_t pair);
void members_byte(uint32_t trace, uint32_t cell, uint32_t life, uintptr_t address);
void members_write(void);

#endif
