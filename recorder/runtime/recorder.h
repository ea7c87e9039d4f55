/* What the parts of the runtime share. The program runs serially, child first, on one thread; the runtime has no locks.

   Modules and their states, one owner each:
     start.c      options, start and end of the recording, messages
     histories.c  the state of each location; raw.c keeps each byte's accesses instead (CILKCHECK_RAW)
     stack.c      the frames of the running stack
     heap.c       the blocks of the heap, and those in quarantine
     scopes.c     functions, children and blocks that are open; the running strand
     states.c     what of a location's accesses a later one may race with
     pairs.c      the classes of pairs that are told, each as a cell
     log.c        the events of the run: spawns, ends, syncs, reducers, accesses of a raw recording
     accesses.c, abi.c   what the compiler pass puts into the program
     control.c    a trace's requests
     traces.c     the pairs of each trace, and their files; text.c writes them
     places.c, notes.c   what a place and a location are called */
#ifndef CILKCHECK_RECORDER_H
#define CILKCHECK_RECORDER_H
#include <stdbool.h>
#include <stddef.h>
#include <stdint.h>

/* A place is the address of a row of the table of sites (pass/rows.h), or 0. PLACE is the program's innermost call (abi.h). What calls back into
   the program keeps it in a variable before. */
#define PLACE ((uintptr_t)__cilkcheck_place)
extern const struct cilkcheck_site *__cilkcheck_place;
/* What runs at each spawn or call: the functions that it calls are compiled into it, but for those that are RARE. */
#define FLAT __attribute__((flatten))
#define RARE __attribute__((noinline, cold))

/* ---- messages (start.c) ---- */

/* Says `cilkcheck: refused: FILE:LINE: ..`, leaves no trace, and ends the program with status 70. `place` may be 0. */
_Noreturn void refuse(uintptr_t place, const char *format, ...) __attribute__((format(printf, 2, 3)));
/* Says `cilkcheck: warning: FILE:LINE: ..`. */
void warn(uintptr_t place, const char *format, ...) __attribute__((format(printf, 2, 3)));
/* A note `#run ..` of each trace: what a clean verdict does not cover. The same text twice is one note. */
void note_unseen(const char *format, ...) __attribute__((format(printf, 1, 2)));
/* Begins the recording where it has not begun. Each call from outside that may be the first of a run comes through it. */
void begin_recording(void);
extern bool recording_began;
static inline void start_recording(void) { if (__builtin_expect(!recording_began, 0)) begin_recording(); }
/* Ends the recording and writes the traces: behind the program's destructors, or where it ends without them. */
void finish_recording(void);
/* False before the recording begins and once its end has come: then nothing is looked at. */
extern bool recording;
/* Address space that reads as zeros; memory is taken as it is touched. Never NULL. */
void *reserve(size_t bytes);
void unreserve(void *at, size_t bytes);

/* ---- accesses (histories.c) ---- */

/* LOAD is an atomic load, BUMP an atomic store or read-modify-write. Two of LOAD and BUMP never conflict, two of READ and LOAD neither. */
enum access { ACCESS_READ, ACCESS_LOAD, ACCESS_BUMP, ACCESS_WRITE };
/* The running strand accesses [address, address + bytes). */
void record_access(uintptr_t address, size_t bytes, enum access kind, uintptr_t place);

/* The lives of the locations in [from, to) end: what is there next is something else. */
void end_lives(uintptr_t from, uintptr_t to);
/* [from, to) is no memory, as the view of a reducer: until its lives end its accesses are not looked at. */
void hide_memory(uintptr_t from, uintptr_t to);
/* Accesses are not looked at while more calls with true were made than with false. */
void hide_accesses(bool on);

/* ---- stacks (stack.c) ---- */

/* The stack above `top` is the callers'; the shared locals lie at `locals` as `row` says; `caller` is the place of the call. */
struct frame { uintptr_t top, locals; const struct cilkcheck_frame *row; uintptr_t caller; };
/* One stack of the program. Below `low` + `span` and at or above `low` lie its locals, those of the frames from `first` on; nothing below
   `touched` was accessed. */
struct stack { struct frame *frames; struct dynamic *dynamics; uint32_t depth, first, most, dynamic_count; uintptr_t low, span, touched; };
struct stack stack_current(void);
void stack_use(struct stack stack);
/* A stack over [low, low + span) for a thread of OpenMP, with no frames of its own behind those of the maker. */
struct stack stack_new(uintptr_t low, size_t span);
void stack_free(struct stack stack);
/* How many functions run. */
uint32_t stack_depth(void);

/* ---- scopes, strands, and the log (scopes.c) ---- */

enum scope_kind { SCOPE_ROOT, SCOPE_FUNCTION, SCOPE_CHILD, SCOPE_BLOCK, SCOPE_TASKGROUP, SCOPE_PARALLEL };
/* Something with a block of children of its own. `depth` is the number of running functions when it was entered, `open` says that
   children are outstanding, `ended` that one of them has ended: the site of its spawn, else 0. `marks` belongs to OpenMP: a new scope has those
   of the one around it that SCOPE_INHERITED covers. In the log, `began` is the place before its own event, and `block_began` that before the
   first spawn of its block. */
struct log_place { uint32_t bytes; };                   /* log.h */
struct level { uint32_t node, block, path, first; };    /* states.h */
struct scope {
  uint32_t depth, ended; uint8_t kind, marks; bool open;
  struct log_place began, block_began;
  struct level level;
};
#define SCOPE_INHERITED 0x0F
/* The innermost scope; the one around it lies before it. The outermost has kind SCOPE_ROOT. */
struct scope *scope_top(void);
void scope_enter(enum scope_kind kind, uint32_t depth, uintptr_t place);
/* Syncs, and leaves the innermost scope, which is no SCOPE_CHILD. */
void scope_leave(uintptr_t place);
/* A child begins in the function at `depth`, which becomes a scope where the innermost scope is not its own. */
void scope_spawn(uint32_t depth, uintptr_t place);
/* A child of the innermost scope begins, whatever its depth. */
void scope_spawn_here(uint32_t depth, uintptr_t place);
/* The child that began at `depth` syncs and ends. */
void scope_child_end(uint32_t depth, uintptr_t place);
/* The innermost scope syncs, where it has children outstanding. */
void scope_sync(uintptr_t place);
/* The same, where it belongs to the function at `depth`. */
void scope_sync_at(uint32_t depth, uintptr_t place);
/* The running strand. Numbers are never used again in a run. */
uint32_t scope_strand(void);
/* The program is about to end, and this strand has not returned from its scopes (exit in a child): they are closed, and said. */
void scope_close_all(uintptr_t place);

enum reducer_operation { REDUCER_MADE, REDUCER_UPDATE, REDUCER_PUT, REDUCER_GET, REDUCER_UNMADE };
/* The running strand puts into, gets or updates reducer number `reducer` (numbers from 0, dense). MADE is told as a put. */
void scope_reducer(enum reducer_operation operation, uint32_t reducer, uintptr_t place);

/* ---- the heap (heap.c) ---- */

/* Memory of the runtime's own, and of libc's: no block of the program. */
void *plain_malloc(size_t bytes);
void plain_free(void *at);
/* A block that a library function made for the program (getline, strdup, ..) and one that it frees. A block that is not known is freed
   by libc alone. */
void heap_made(void *block, size_t bytes, uintptr_t place);
void heap_freed(void *block, uintptr_t place);
/* The bytes of the program's block that begins at `block`, or 0 where there is none. */
size_t heap_bytes(const void *block);

/* ---- OpenMP (openmp.h) ---- */

/* A mark of scopes whose children are OpenMP's tasks: functions inside may return while these are outstanding. */
#define SCOPE_OF_TASKS 0x10
/* A function returns so; its locals lie in [from, to). */
void openmp_function_end(uintptr_t from, uintptr_t to, uintptr_t place);
/* OpenMP asks abi.c. */

/* Whether __cilkcheck_outlined was called since the last time this was asked. */
bool outlined_next(void);

#endif
