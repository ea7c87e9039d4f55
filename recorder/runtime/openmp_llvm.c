/* What clang calls for OpenMP: __kmpc_*. See openmp.h. `where` names a place of the source, which PLACE does as well;
   `thread` is what __kmpc_global_thread_num gave. */
#include "openmp.h"
#include <stdarg.h>
#include <string.h>

struct ident;
#define CALLED(result, name, ...) \
  result name(__VA_ARGS__);       \
  result name(__VA_ARGS__)

/* ---- tasks ---- */

/* The part of a task that the compiler knows; its own data follow, and the addresses of what it shares. */
struct task {
  void *shared;
  int (*run)(int, struct task *);
  int part;
  int (*destroy)(int, struct task *);
  void *priority;
};
/* Stands before each task, as aligned as the task may be. An untied task ends at each scheduling point, having handed itself over again. */
struct head { _Alignas(64) size_t bytes; size_t task_bytes; int flags; bool running, again; enum task_kind kind; };
enum { FLAG_FINAL = 1 << 1, FLAG_DESTROY = 1 << 3, FLAG_DETACH = 1 << 6 };
#define HEAD(task) ((struct head *)(void *)(task) - 1)

static int thread_number(void) { return team_thread(team_level()); }

static struct task *new_task(size_t task_bytes, size_t shared_bytes, int flags, uintptr_t place) {
  task_bytes = (task_bytes + 15) & ~(size_t)15;
  size_t bytes = sizeof(struct head) + task_bytes + shared_bytes;
  struct head *head = task_memory(bytes, sizeof *head, place);
  memset(head, 0, sizeof *head + task_bytes);
  head->bytes = bytes;
  head->task_bytes = task_bytes;
  head->flags = flags;
  struct task *task = (struct task *)(void *)(head + 1);
  task->shared = (char *)task + task_bytes;
  return task;
}
static void free_task(struct task *task) { task_memory_free(HEAD(task), HEAD(task)->bytes); }

/* The parts of an untied task that are left, and the destructors of its data. */
static void finish_task(struct task *task) {
  struct head *head = HEAD(task);
  while (head->again) {
    head->again = false;
    task->run(thread_number(), task);
  }
  if (head->flags & FLAG_DESTROY) task->destroy(thread_number(), task);
  head->running = false;
}
static void run_task(void *data) {
  struct task *task = data;
  HEAD(task)->running = true;
  task->run(thread_number(), task);
  finish_task(task);
}
static void start_task(struct task *task, bool condition, uintptr_t place) {
  if (HEAD(task)->running) {
    HEAD(task)->again = true;
    return;
  }
  task_memory_handed(HEAD(task), HEAD(task)->bytes);
  task_run(task_kind(condition), HEAD(task)->flags & FLAG_FINAL, run_task, task, place);
  free_task(task);
}

CALLED(struct task *, __kmpc_omp_task_alloc, struct ident *where, int thread, int flags, size_t task_bytes, size_t shared_bytes, int (*run)(int, struct task *)) {
  (void)where;
  (void)thread;
  if (flags & FLAG_DETACH) refuse(PLACE, "a task with detach is not spawn and sync");
  struct task *task = new_task(task_bytes, shared_bytes, flags, PLACE);
  task->run = run;
  return task;
}
CALLED(int, __kmpc_omp_task, struct ident *where, int thread, struct task *task) {
  (void)where;
  (void)thread;
  start_task(task, true, PLACE);
  return 0;
}
/* The compiler calls an undeferred task's function between these two. */
CALLED(void, __kmpc_omp_task_begin_if0, struct ident *where, int thread, struct task *task) {
  (void)where;
  (void)thread;
  struct head *head = HEAD(task);
  head->running = true;
  head->kind = task_kind(false);
  task_begin(head->kind, head->flags & FLAG_FINAL, PLACE);
}
CALLED(void, __kmpc_omp_task_complete_if0, struct ident *where, int thread, struct task *task) {
  (void)where;
  (void)thread;
  uintptr_t place = PLACE;
  finish_task(task);
  task_end(HEAD(task)->kind, place);
  free_task(task);
}

/* The bounds of a taskloop lie in the task; the last round belongs to it. Each part is a copy of the task. */
static struct task *task_part(struct task *task, void (*copy)(struct task *, struct task *, int), bool is_last, uintptr_t place) {
  const struct head *head = HEAD(task);
  struct task *part = new_task(head->task_bytes, head->bytes - sizeof *head - head->task_bytes, head->flags, place);
  memcpy(part, task, head->bytes - sizeof *head);
  part->shared = (char *)part + head->task_bytes;
  if (copy) copy(part, task, is_last);
  return part;
}
enum { DIVIDED_FREELY, DIVIDED_BY_GRAIN, DIVIDED_BY_COUNT };
static void task_loop(struct task *task, bool condition, uint64_t *lower, uint64_t *upper, int64_t step, int group, int divided, uint64_t number,
                      void (*copy)(struct task *, struct task *, int), uintptr_t place) {
  if (!group) task_group_begin(place);
  uint64_t from = *lower, stride = step > 0 ? (uint64_t)step : -(uint64_t)step;
  int64_t distance = step > 0 ? (int64_t)(*upper - from) : (int64_t)(from - *upper);
  uint64_t rounds = distance < 0 ? 0 : (uint64_t)distance / stride + 1;
  struct division division = division_of(rounds, divided == DIVIDED_BY_GRAIN ? number : 0, divided == DIVIDED_BY_COUNT ? number : 0);
  for (uint64_t i = 0; i < division.tasks; i++) {
    uint64_t first, count = division_part(division, i, &first);
    struct task *part = task_part(task, copy, i == division.tasks - 1, place);
    *(uint64_t *)(void *)((char *)part + ((char *)lower - (char *)task)) = from + first * (uint64_t)step;
    *(uint64_t *)(void *)((char *)part + ((char *)upper - (char *)task)) = from + (first + count - 1) * (uint64_t)step;
    start_task(part, condition, place);
  }
  free_task(task);
  if (!group) task_group_end(place);
}
CALLED(void, __kmpc_taskloop, struct ident *where, int thread, struct task *task, int condition, uint64_t *lower, uint64_t *upper, int64_t step, int no_group,
       int divided, uint64_t number, void (*copy)(struct task *, struct task *, int)) {
  (void)where;
  (void)thread;
  task_loop(task, condition, lower, upper, step, no_group, divided, number, copy, PLACE);
}

CALLED(int, __kmpc_omp_taskwait, struct ident *where, int thread) {
  (void)where;
  (void)thread;
  task_wait(PLACE);
  return 0;
}
CALLED(int, __kmpc_omp_taskyield, struct ident *where, int thread, int part) {
  (void)where;
  (void)thread;
  (void)part;
  return 0;
}
CALLED(void, __kmpc_taskgroup, struct ident *where, int thread) {
  (void)where;
  (void)thread;
  task_group_begin(PLACE);
}
CALLED(void, __kmpc_end_taskgroup, struct ident *where, int thread) {
  (void)where;
  (void)thread;
  task_group_end(PLACE);
}

/* ---- threads ---- */

/* A region's function takes two thread numbers by address and its shared variables, as many as there are. */
enum { MOST_SHARED = 64 };
typedef void region(int *, int *, ...);
struct call { region *run; void *shared[MOST_SHARED]; };
#define EIGHT(i) s[i], s[i + 1], s[i + 2], s[i + 3], s[i + 4], s[i + 5], s[i + 6], s[i + 7]
static void run_region(void *data) {
  struct call *call = data;
  void **s = call->shared;
  int thread = thread_number(), bound = thread;
  call->run(&thread, &bound, EIGHT(0), EIGHT(8), EIGHT(16), EIGHT(24), EIGHT(32), EIGHT(40), EIGHT(48), EIGHT(56));
}
static unsigned pushed_threads;

CALLED(void, __kmpc_fork_call, struct ident *where, int count, region *run, ...) {
  (void)where;
  struct call call = {.run = run};
  if (count > MOST_SHARED) refuse(PLACE, "a parallel region with more than %d shared variables", MOST_SHARED);
  va_list v;
  va_start(v, run);
  for (int i = 0; i < count; i++) call.shared[i] = va_arg(v, void *);
  va_end(v);
  unsigned threads = pushed_threads;
  pushed_threads = 0;
  team_run(run_region, &call, threads, PLACE);
}
CALLED(void, __kmpc_push_num_threads, struct ident *where, int thread, int threads) {
  (void)where;
  (void)thread;
  pushed_threads = threads > 0 ? (unsigned)threads : 0;
}
CALLED(void, __kmpc_push_proc_bind, struct ident *where, int thread, int bind) {
  (void)where;
  (void)thread;
  (void)bind;
}
CALLED(void, __kmpc_serialized_parallel, struct ident *where, int thread) {
  (void)where;
  (void)thread;
  pushed_threads = 0;
  team_begin_serial(PLACE);
}
CALLED(void, __kmpc_end_serialized_parallel, struct ident *where, int thread) {
  (void)where;
  (void)thread;
  team_end_serial(PLACE);
}
CALLED(int, __kmpc_global_thread_num, struct ident *where) {
  (void)where;
  return thread_number();
}
CALLED(int, __kmpc_single, struct ident *where, int thread) {
  (void)where;
  (void)thread;
  return team_single();
}
CALLED(void, __kmpc_end_single, struct ident *where, int thread) {
  (void)where;
  (void)thread;
}
CALLED(int, __kmpc_master, struct ident *where, int thread) {
  (void)where;
  (void)thread;
  team_asked_thread();
  return thread_number() == 0;
}
CALLED(void, __kmpc_end_master, struct ident *where, int thread) {
  (void)where;
  (void)thread;
}
CALLED(int, __kmpc_masked, struct ident *where, int thread, int filter) {
  (void)where;
  (void)thread;
  team_asked_thread();
  return thread_number() == filter;
}
CALLED(void, __kmpc_end_masked, struct ident *where, int thread) {
  (void)where;
  (void)thread;
}
CALLED(void, __kmpc_barrier, struct ident *where, int thread) {
  (void)where;
  (void)thread;
  team_barrier(PLACE);
}
CALLED(void, __kmpc_flush, struct ident *where) { (void)where; }
