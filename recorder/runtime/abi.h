/* What a recorded program calls: the hooks of the compiler pass (recorder/pass), and the calls into which it turns the rewriter's marks
   `__cilkcheck_mark_X(..)`. A place is a row of the table of sites (pass/rows.h) in the same object. */
#ifndef CILKCHECK_ABI_H
#define CILKCHECK_ABI_H
#include "../pass/rows.h"
#include <stddef.h>
#include <stdint.h>

typedef const struct cilkcheck_site *site_row;

/* Each recorded object refers to it, so that one of another version of the hooks does not link. */
extern const char __cilkcheck_version_1;
/* The call that the program is about to make, or made last: the place of what a library's function does. The pass sets it before each call that
   is no intrinsic, and before each leave. A function in a header of the system's, or of no known file, leaves it as it was at its entry: so it is
   the place of what such functions do, too. */
extern site_row __cilkcheck_place;

/* ---- accesses ---- */

/* The running strand is about to read or write so many bytes. */
void __cilkcheck_read1(const void *at, site_row site);
void __cilkcheck_read2(const void *at, site_row site);
void __cilkcheck_read4(const void *at, site_row site);
void __cilkcheck_read8(const void *at, site_row site);
void __cilkcheck_read16(const void *at, site_row site);
void __cilkcheck_write1(const void *at, site_row site);
void __cilkcheck_write2(const void *at, site_row site);
void __cilkcheck_write4(const void *at, site_row site);
void __cilkcheck_write8(const void *at, site_row site);
void __cilkcheck_write16(const void *at, site_row site);
/* The same for any size and kind: 0 a read, 1 an atomic load, 2 an atomic store or read-modify-write, 3 a write. A compare-and-exchange is
   told when it is done: 2 where it succeeded, else 1. Two of 1 and 2 never conflict, two of 0 and 1 neither. */
void __cilkcheck_access(const void *at, size_t bytes, int kind, site_row site);

/* ---- functions and their locals ---- */

/* A function begins whose locals may be shared, or that has marks: `top` is the address behind its return address, at which its callers' part
   of the stack begins; its shared locals lie at `locals` as the row says. It is never inlined. Functions that need no such call have no
   local that any access is told of. */
void __cilkcheck_enter(const void *top, const void *locals, const struct cilkcheck_frame *frame);
/* It ends, by a return or an exception. */
void __cilkcheck_leave(void);
/* An exception has come to a function with marks, of whose locals none has been destroyed. `selector` is that of the landing pad: 0 where
   no handler of the function takes the exception, which then leaves it. */
void __cilkcheck_unwound(site_row site, int selector);
/* An array of variable length, or memory of alloca, begins. */
void __cilkcheck_dynamic(const void *at, size_t bytes, site_row site);
/* What lies there is another location from here on: a parameter by value at the function's entry, a temporary of a spawned statement. */
void __cilkcheck_fresh(const void *at, size_t bytes);

/* ---- spawns and syncs ---- */

/* What follows, up to child_end, is a child of the running function. The pass puts the call directly before the spawned one. Further arguments
   are not looked at: they are addresses of locals that are written before child_end, handed over so that the compiler keeps them in memory. */
void __cilkcheck_child_begin(site_row site, ...);
/* The child ends, after its implied sync, and the spawner goes on. */
void __cilkcheck_child_end(site_row site);
/* The same for C++: the statement of a spawn is about to be run, its call, its end. `state` is one pointer's room in the spawner's frame.
   `left` ends the child where it has begun; where an exception passes, it is also a sync of the spawner. */
void __cilkcheck_child_awaited(site_row site, void *state);
void __cilkcheck_child_begins(site_row site, void *state, ...);
void __cilkcheck_child_left(site_row site, void *state);
/* A sync of the running function or scope. */
void __cilkcheck_sync(site_row site);
/* A cilk_for or cilk_scope: a block of children of its own, with a sync at its end. */
void __cilkcheck_scope_begin(site_row site);
void __cilkcheck_scope_left(site_row site);
/* The next OpenMP task stands for a round of a cilk_for or for a spawned block. */
void __cilkcheck_outlined(site_row site);
/* A reducer, named by KEY, was made (0), updated (1), put (2), got (3) or unmade (4). Its view is no memory. */
void __cilkcheck_reducer(site_row site, void *key, int operation, void *view, size_t bytes);
/* From a call with 1 to the call with 0 (nested) accesses are not looked at. */
void __cilkcheck_hide(site_row site, int on);

#endif
