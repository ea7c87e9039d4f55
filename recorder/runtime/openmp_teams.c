/* OpenMP's parallel regions: see openmp.h. The threads take turns on stacks of their own; a region of one thread runs on the stack that
   is there. */
#define _GNU_SOURCE
#include "openmp.h"
#include <stdlib.h>
#include <ucontext.h>

#define MOST_THREADS 64
#define DEFAULT_THREADS 2
#define THREAD_STACK ((size_t)256 << 20)

struct thread { bool done; int singles; ucontext_t context; struct stack stack; void *memory; };
struct team {
  struct team *around;
  void (*run)(void *);
  void *data;
  uint32_t depth;                                /* of functions, where the region is */
  int threads, running, singles, level;
  bool asked, noted;
  uintptr_t barrier;                             /* the one that a thread reached last */
  ucontext_t master;
  struct stack master_stack;
  struct thread thread[MOST_THREADS];
};
static struct team *team;
static int wanted_threads, most_levels = 1;

/* ---- questions ---- */

bool team_exists(void) { return team != NULL; }
int team_level(void) { return team ? team->level : 0; }
int team_active_level(void) {
  int active = 0;
  for (const struct team *at = team; at; at = at->around) active += at->threads > 1;
  return active;
}
static const struct team *team_at(int level) {
  const struct team *at = team;
  while (at && at->level > level) at = at->around;
  return at && at->level == level ? at : NULL;
}
int team_thread(int level) {
  const struct team *at = team_at(level);
  return at ? at->running : level == 0 ? 0 : -1;
}
int team_threads(int level) {
  const struct team *at = team_at(level);
  return at ? at->threads : level == 0 ? 1 : -1;
}
int team_next_threads(void) {
  if (wanted_threads) return wanted_threads;
  const char *environment = getenv("OMP_NUM_THREADS");
  int threads = environment ? atoi(environment) : 0;
  return threads > 0 ? threads : DEFAULT_THREADS;
}
void team_set_threads(int threads) { wanted_threads = threads > 0 ? threads : 0; }
int team_most_levels(void) { return most_levels; }
void team_set_most_levels(int levels) { most_levels = levels < 0 ? 0 : levels; }

/* A single is done by whichever thread comes first, and in this run by the first: that matters where threads differ. */
static void note_single(void) {
  if (!team || !team->asked || !team->singles || team->noted) return;
  team->noted = true;
  note_unseen("a single was run by thread 0 of threads that differ by their numbers; other runs may take another");
}
void team_asked_thread(void) {
  if (!team) return;
  team->asked = true;
  note_single();
}
bool team_single(void) {
  if (!team) return true;
  struct thread *thread = &team->thread[team->running];
  if (thread->singles++ < team->singles) return false;
  team->singles++;
  if (team->threads > 1) note_single();
  return true;
}

/* ---- regions ---- */

static struct team *enter(void (*run)(void *), void *data, int threads, uintptr_t place) {
  struct team *mine = reserve(sizeof *mine);
  mine->around = team;
  mine->level = team_level() + 1;
  mine->run = run;
  mine->data = data;
  mine->threads = threads;
  mine->depth = stack_depth();
  scope_enter(SCOPE_PARALLEL, mine->depth, place);
  scope_top()->marks = 0;
  team = mine;
  return mine;
}
static void leave(struct team *mine, uintptr_t place) {
  scope_leave(place);
  team = mine->around;
  unreserve(mine, sizeof *mine);
}
static void thread_begin(int number, uintptr_t place) {
  team->running = number;
  scope_spawn_here(team->depth, place);
  scope_top()->marks = MARK_TASKS | MARK_THREAD;
}
/* A barrier joins all tasks of the region, also those that a task left outstanding. */
static void thread_end(uintptr_t place) { scope_child_end(team->depth, place); }

static void thread_main(unsigned low, unsigned high) {
  struct team *mine = (struct team *)((uintptr_t)low | (uintptr_t)high << 32);
  int number = mine->running;
  mine->run(mine->data);
  mine->thread[number].done = true;
}
static void thread_make(struct team *mine, struct thread *thread) {
  thread->memory = reserve(THREAD_STACK);
  thread->stack = stack_new((uintptr_t)thread->memory, THREAD_STACK);
  getcontext(&thread->context);
  thread->context.uc_stack.ss_sp = thread->memory;
  thread->context.uc_stack.ss_size = THREAD_STACK;
  thread->context.uc_link = &mine->master;
  makecontext(&thread->context, (void (*)(void))thread_main, 2, (unsigned)(uintptr_t)mine, (unsigned)((uintptr_t)mine >> 32));
}
static void thread_free(struct thread *thread) {
  uintptr_t low = (uintptr_t)thread->memory;
  end_lives(low, low + THREAD_STACK);
  stack_free(thread->stack);
  unreserve(thread->memory, THREAD_STACK);
}
/* One thread runs up to its next barrier or its end. */
static void thread_turn(struct team *mine, struct thread *thread) {
  mine->master_stack = stack_current();
  stack_use(thread->stack);
  swapcontext(&mine->master, &thread->context);
  team = mine;
  thread->stack = stack_current();
  stack_use(mine->master_stack);
}

static void run_several(struct team *mine, uintptr_t place) {
  for (int i = 0; i < mine->threads; i++) thread_make(mine, &mine->thread[i]);
  int done = 0;
  while (!done) {
    for (int i = 0; i < mine->threads; i++) {
      thread_begin(i, place);
      thread_turn(mine, &mine->thread[i]);
      thread_end(place);
      done += mine->thread[i].done;
    }
    scope_sync(place);
    if (done && done < mine->threads) refuse(mine->barrier, "a barrier that not all threads of its region reach");
  }
  for (int i = 0; i < mine->threads; i++) thread_free(&mine->thread[i]);
}
void team_run(void (*run)(void *), void *data, unsigned wanted, uintptr_t place) {
  start_recording();
  int threads = wanted && wanted <= MOST_THREADS ? (int)wanted : wanted ? MOST_THREADS : team_next_threads();
  if (threads > MOST_THREADS) threads = MOST_THREADS;
  if (team_active_level() >= most_levels) threads = 1;
  struct team *mine = enter(run, data, threads, place);
  if (threads == 1) {
    thread_begin(0, place);
    run(data);
    thread_end(place);
  } else {
    run_several(mine, place);
  }
  leave(mine, place);
}
void team_begin_serial(uintptr_t place) {
  start_recording();
  enter(NULL, NULL, 1, place);
  thread_begin(0, place);
}
void team_end_serial(uintptr_t place) {
  if (!team) refuse(place, "a parallel region was not left as it was entered");
  thread_end(place);
  leave(team, place);
}

void team_barrier(uintptr_t place) {
  if (!team) return;
  struct team *mine = team;
  if (!(scope_top()->marks & MARK_THREAD)) refuse(place, "a barrier inside of a task or a taskgroup");
  mine->barrier = place;
  if (mine->threads > 1) {
    swapcontext(&mine->thread[mine->running].context, &mine->master);
    return;
  }
  thread_end(place);
  scope_sync(place);
  thread_begin(0, place);
}
