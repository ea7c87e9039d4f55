/* What a location is, as a number: origins that are told alike have one. */
#ifndef CILKCHECK_ORIGINS_H
#define CILKCHECK_ORIGINS_H
#include "recorder.h"

/* What a location is, for notes: a local of a function, a block of the heap, a task's own data, or a global (found by its address). `place` is
   the row of the function's frame; that of the call that took the block, or that made the task; or 0. `base` is where it begins; of a local
   without a name, the frame's top. `more` is the local's number from 1 on, or 0; the place where one of variable length begins; or
   the bytes of the block. */
enum origin_kind { ORIGIN_GLOBAL, ORIGIN_LOCAL, ORIGIN_DYNAMIC, ORIGIN_HEAP, ORIGIN_TASK };
struct origin { enum origin_kind kind; uintptr_t place, base; uint64_t more; };
/* What lies at an address now. */
struct origin origin_of_address(uintptr_t address);
uint32_t origin_number(const struct origin *origin);
/* The text of a note: what the location of that origin at that offset is. True where that text is the same for all its offsets, and which
   byte it is has to follow. */
bool origin_name(uint32_t number, uint32_t offset, char *text, size_t room);

#endif
