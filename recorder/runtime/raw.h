/* The full recording (CILKCHECK_RAW=1): each byte is a location, each access of it an event of the log, nothing is left out. What the
   histories leave out is held against it by tests, so it is as simple as can be: one number a byte, a new one for each life.

   Invariant: a byte's number is 0 where its life has not been accessed, RAW_HIDDEN where it is no memory, else its location's. */
#ifndef CILKCHECK_RAW_H
#define CILKCHECK_RAW_H
#include "recorder.h"

#define RAW_HIDDEN UINT32_MAX
void raw_begin(void);
void raw_access(uintptr_t address, size_t bytes, enum access kind, uint32_t site);
void raw_end(uintptr_t from, uintptr_t to);
void raw_hide(uintptr_t from, uintptr_t to);
/* How many locations there are (they are numbered from 1), where the last one numbered so lies, and whether an atomic load occurs. */
uint32_t raw_locations(void);
uintptr_t raw_address(uint32_t location);
bool raw_has_loads(void);

#endif
