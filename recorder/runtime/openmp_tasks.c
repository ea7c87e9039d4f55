/* OpenMP's tasks: see openmp.h. */
#include "openmp.h"
#include "stack.h"

static void expect_tasks(const struct scope *scope, const char *what, uintptr_t place) {
  if (!(scope->marks & MARK_TASKS)) refuse(place, "%s inside of a function with children of Cilk", what);
}

/* ---- tasks ---- */

enum task_kind task_kind(bool condition) {
  if (outlined_next()) return TASK_CILK;
  if (!team_exists() || scope_top()->marks & MARK_FINAL) return TASK_CALL;
  return condition ? TASK_DEFERRED : TASK_UNDEFERRED;
}

void task_begin(enum task_kind kind, bool final, uintptr_t place) {
  if (kind == TASK_CALL) return;
  if (kind == TASK_CILK) {
    scope_spawn(stack_depth(), place);
    return;
  }
  expect_tasks(scope_top(), "a task of OpenMP", place);
  if (kind == TASK_DEFERRED) scope_spawn_here(stack_depth(), place);
  else scope_enter(SCOPE_TASKGROUP, stack_depth(), place);
  struct scope *task = scope_top();
  task->marks |= (uint8_t)(MARK_TASKS | MARK_EXPLICIT | (final ? MARK_FINAL : 0));
}
void task_end(enum task_kind kind, uintptr_t place) {
  if (kind == TASK_CALL) return;
  const struct scope *task = scope_top();
  bool leaks = task->open || task->marks & MARK_LEAKS;
  if (kind == TASK_UNDEFERRED) {
    if (leaks) refuse(place, "an undeferred task ends with tasks of its own outstanding, which is not spawn and sync");
    scope_leave(place);
    return;
  }
  scope_child_end(stack_depth(), place);
  if (kind == TASK_DEFERRED && leaks) scope_top()->marks |= MARK_LEAKS;
}
void task_run(enum task_kind kind, bool final, void (*run)(void *), void *data, uintptr_t place) {
  task_begin(kind, final, place);
  run(data);
  task_end(kind, place);
}

/* ---- joining ---- */

void task_wait(uintptr_t place) {
  if (!team_exists()) return;
  const struct scope *task = scope_top();
  expect_tasks(task, "a taskwait", place);
  if (task->marks & MARK_LEAKS) refuse(place, "a taskwait joins tasks that left tasks of their own outstanding, for which it does not wait: this is not spawn and sync");
  for (const struct scope *group = task; group->marks & MARK_GROUP; group--)
    if (group[-1].open) refuse(place, "a taskwait inside of a taskgroup also waits for tasks from before it: this is not spawn and sync");
  scope_sync(place);
}
void task_group_begin(uintptr_t place) {
  if (!team_exists()) return;
  expect_tasks(scope_top(), "a taskgroup", place);
  scope_enter(SCOPE_TASKGROUP, stack_depth(), place);
  scope_top()->marks |= MARK_TASKS | MARK_GROUP;
}
void task_group_end(uintptr_t place) {
  if (!team_exists()) return;
  if (!(scope_top()->marks & MARK_GROUP)) refuse(place, "a taskgroup was not left at its end");
  scope_leave(place);
}

/* A function returns; `from` .. `to` holds its locals. */
void openmp_function_end(uintptr_t from, uintptr_t to, uintptr_t place) {
  if (from < to) record_access(from, to - from, ACCESS_WRITE, place);
}

/* ---- a task's own data ---- */

struct memory { void *block; struct memory *older; size_t bytes; uintptr_t place; };   /* stands before the memory */
static struct memory *newest;

void *task_memory(size_t bytes, size_t alignment, uintptr_t place) {
  if (alignment < sizeof(struct memory)) alignment = sizeof(struct memory);
  char *block = plain_malloc(bytes + alignment + sizeof(struct memory));
  if (!block) refuse(place, "no memory for a task's data");
  uintptr_t at = ((uintptr_t)block + sizeof(struct memory) + alignment - 1) & ~(uintptr_t)(alignment - 1);
  struct memory *memory = (struct memory *)at - 1;
  *memory = (struct memory){block, newest, bytes, place};
  newest = memory;
  end_lives(at, at + bytes);
  return (void *)at;
}
void task_memory_handed(void *memory, size_t bytes) { end_lives((uintptr_t)memory, (uintptr_t)memory + bytes); }
void task_memory_free(void *memory, size_t bytes) {
  end_lives((uintptr_t)memory, (uintptr_t)memory + bytes);
  struct memory *freed = (struct memory *)memory - 1, **at = &newest;
  while (*at != freed) at = &(*at)->older;
  *at = freed->older;
  plain_free(freed->block);
}
bool task_memory_of(uintptr_t address, uintptr_t *base, size_t *bytes, uintptr_t *place) {
  for (const struct memory *memory = newest; memory; memory = memory->older) {
    *base = (uintptr_t)(memory + 1);
    *bytes = memory->bytes;
    *place = memory->place;
    if (address - *base < *bytes) return true;
  }
  return false;
}

/* ---- taskloops ---- */

/* With no clause each round is a task, since the division is the library's choice. With a grain size, tasks of as many rounds, the last
   one with what remains; with a number of tasks, as many, as even as can be. */
struct division division_of(uint64_t rounds, uint64_t grain, uint64_t wanted_tasks) {
  uint64_t tasks = grain > 1 ? rounds / grain : wanted_tasks && wanted_tasks < rounds ? wanted_tasks : rounds;
  return (struct division){rounds, tasks ? tasks : rounds != 0};
}
uint64_t division_part(struct division division, uint64_t task, uint64_t *first) {
  uint64_t each = division.rounds / division.tasks, more = division.rounds % division.tasks;
  *first = task * each + (task < more ? task : more);
  return each + (task < more);
}
