/* The program's blocks of memory.

   A free writes its block: an access in parallel with it is a race. Then the block stays in quarantine for a while, so that an access
   behind its free is seen as one, and its locations' lives end before its memory is used again.

   Invariants: `blocks` is a hash table by address of the blocks that were given and not freed; a block in quarantine is in none. Memory of
   the runtime's own never comes from here (start.h's reserve). A block that is not known is passed on to libc untouched. */
#ifndef CILKCHECK_HEAP_H
#define CILKCHECK_HEAP_H
#include "recorder.h"

struct block { uintptr_t base; size_t bytes; uintptr_t place; };
void heap_begin(void);
/* The block in which an address lies. False where there is none, or it would take too long to find. */
bool heap_block_of(uintptr_t address, struct block *block);

#endif
