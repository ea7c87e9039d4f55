/* The frames of the running stack, kept by the hooks at entry and exit of those functions that need them: whose locals are shared, or that
   have marks. Another function's locals are in no access that is told, so the innermost of these functions stands for those above it.

   Invariants: frames[first .. depth) are the running functions of this stack, outermost first, their tops descending; those before are
   the maker's of a thread. What was told of the stack's span below the innermost frame's top belongs to it; where a function begins or
   ends, all below its top is dead. No entry of a unit in the span lies below `touched`. The dynamic locals that live are in descending
   order. */
#ifndef CILKCHECK_STACK_H
#define CILKCHECK_STACK_H
#include "recorder.h"

extern struct stack stack_now;
void stack_begin(void);
/* What lies at an address of the stack: the frame; and in it the local that the row calls by `number` from 1 on, or one of variable length,
   with the place where it began; from `base` on. */
struct local { struct frame frame; uint32_t number; uintptr_t dynamic, base; };
/* False where no frame is there. */
bool stack_local_of(uintptr_t address, struct local *local);

static inline void stack_touch(uintptr_t address) {
  if (address - stack_now.low < stack_now.span && address < stack_now.touched) stack_now.touched = address;
}

#endif
