/* OpenMP's tasks and threads as spawns and syncs: what is behind clang's calls (openmp_llvm.c).

   - A parallel region is a scope whose children are its threads. They run one after another, each on a stack of its own and up to the next
     barrier; there all are synced, and spawned anew for what follows.
   - A task is a child of the scope of the task around it (a thread's own task is its scope), wherever the functions between stand. A
     taskgroup is a scope within, with a sync at its end.
   - A taskwait is a sync of the task's children. A task may end with children outstanding: the scope says so (MARK_LEAKS), since a spawned
     child that ends has its own synced. That is the same where a barrier or a taskgroup joins both, and not where a taskwait joins the
     task alone, which is refused.
   - A function that returns while its tasks are outstanding gives up its locals, as a free does a block: a task that uses them races with it.
   - Outside of parallel regions, and inside of a final task, tasks are calls, as by clang's library.
   Whatever is not spawn and sync is refused where it is called (openmp_calls.c). */
#ifndef CILKCHECK_OPENMP_H
#define CILKCHECK_OPENMP_H
#include "recorder.h"

/* Marks of scopes; the first two hold for all scopes within. */
enum {
  MARK_FINAL = 0x01,     /* tasks inside are calls */
  MARK_EXPLICIT = 0x02,  /* inside of a task, and not of a thread's own */
  MARK_TASKS = SCOPE_OF_TASKS, /* its children are OpenMP's: a thread, a task, a taskgroup */
  MARK_THREAD = 0x20,    /* a thread of a parallel region */
  MARK_LEAKS = 0x40,     /* a child ended with children of its own outstanding */
  MARK_GROUP = 0x80      /* a taskgroup */
};

/* ---- tasks (openmp_tasks.c) ---- */

enum task_kind {
  TASK_CILK,             /* a round of a cilk_for, or a spawned block: a child of the function */
  TASK_DEFERRED,         /* a child of the task around it */
  TASK_UNDEFERRED,       /* a call with children of its own */
  TASK_CALL              /* a call */
};
/* What kind a task is, from its `if` and its `final` clauses and from where it is made. */
enum task_kind task_kind(bool condition);
void task_run(enum task_kind kind, bool final, void (*run)(void *), void *data, uintptr_t place);
/* The same in two parts, where the compiler calls the task's function itself. */
void task_begin(enum task_kind kind, bool final, uintptr_t place);
void task_end(enum task_kind kind, uintptr_t place);
void task_wait(uintptr_t place);
void task_group_begin(uintptr_t place);
void task_group_end(uintptr_t place);
/* Memory for a task's own copy of what it is given; nothing of its former use is left. Once it is handed to the task its spawner is done
   with it: what that wrote comes before all that the task does, so its locations begin anew. */
void *task_memory(size_t bytes, size_t alignment, uintptr_t place);
void task_memory_handed(void *memory, size_t bytes);
void task_memory_free(void *memory, size_t bytes);
/* Whether an address lies in such memory, where that begins, and what task_memory was asked for. */
bool task_memory_of(uintptr_t address, uintptr_t *base, size_t *bytes, uintptr_t *place);

/* How the rounds of a taskloop are divided: how many tasks, and the rounds of number `task` from `*first` on. */
struct division { uint64_t rounds, tasks; };
struct division division_of(uint64_t rounds, uint64_t grain, uint64_t wanted_tasks);
uint64_t division_part(struct division division, uint64_t task, uint64_t *first);

/* ---- threads (openmp_teams.c) ---- */

struct team;
/* Runs a parallel region: `run(data)` by `wanted` threads, or as many as the program or OMP_NUM_THREADS asks for (0), by default 2. */
void team_run(void (*run)(void *), void *data, unsigned wanted, uintptr_t place);
/* The same by one thread, where the compiler calls the region's function itself. */
void team_begin_serial(uintptr_t place);
void team_end_serial(uintptr_t place);
void team_barrier(uintptr_t place);
/* Whether the running thread is the one that does this `single`. */
bool team_single(void);
/* The running thread, how many there are, and what the next region would have. `level` counts regions from 0, outside of all. */
bool team_exists(void);
int team_thread(int level);
int team_threads(int level);
int team_level(void);
int team_active_level(void);
int team_next_threads(void);
void team_set_threads(int threads);
int team_most_levels(void);
void team_set_most_levels(int levels);
/* The program asked which thread it runs on, so its threads differ in more than what they share. */
void team_asked_thread(void);

#endif
