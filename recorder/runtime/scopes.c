/* The stack of scopes, and the running strand. scopes.h states the invariants. */
#include "scopes.h"
#include "histories.h"
#include "log.h"
#include "places.h"
#include "states.h"
#include "start.h"

#define MOST_SCOPES (1u << 24)

struct scope *scope_innermost, *scope_outermost;
static uint32_t open_blocks, strand, reducers;
static bool logging;                           /* the log has been begun */
static uint32_t idle_begin, idle_end;          /* the log ends in an idle child of the innermost scope where `idle_end` is its end */
struct scope *scope_top(void) { start_recording(); return scope_innermost; }
uint32_t scope_strand(void) { return strand; }

static inline void tell(enum log_event event, uintptr_t place) { if (logging) log_event(event, place_site(place)); }
/* The log begins with what it would have kept: the open scopes, and an idle child in each of their blocks in which a child has ended. */
static RARE void begin_log(void) {
  logging = true;
  log_begin();
  for (struct scope *scope = scope_outermost;; scope++) {
    scope->block_began = log_here();
    if (scope->ended) {
      idle_begin = log_here().bytes;
      log_event(LOG_SPAWN, scope->ended);
      log_event(LOG_CHILD_END, scope->ended);
      idle_end = log_here().bytes;
    }
    if (scope == scope_innermost) return;
    scope[1].began = log_here();
    log_event(scope[1].kind == SCOPE_CHILD ? LOG_SPAWN : LOG_ENTER, states_site(&scope[1].level));
  }
}

void scopes_begin(void) {
  scope_innermost = scope_outermost = reserve(sizeof *scope_innermost * MOST_SCOPES);
  scope_innermost->kind = SCOPE_ROOT;
  if (options.raw) begin_log();
}

static void push_scope(enum scope_kind kind, uint32_t depth, struct log_place began, uint32_t site) {
  if (scope_innermost == scope_outermost + MOST_SCOPES - 1) refuse(0, "more than %u calls and spawns at once", MOST_SCOPES);
  histories_forget_edges();
  struct scope *scope = ++scope_innermost;
  scope->depth = depth;
  scope->kind = (uint8_t)kind;
  scope->marks = scope[-1].marks & SCOPE_INHERITED;
  scope->open = false;
  scope->ended = 0;
  scope->began = began;
  histories_enter(site, kind == SCOPE_CHILD);
}
/* Whether the log ends in an idle child of the innermost scope. */
static bool is_idle(void) { return idle_end && idle_end == log_here().bytes; }
static void cut(struct log_place place) {
  log_cut(place);
  if (idle_end > place.bytes) idle_end = 0;
}
/* The innermost scope ends: whether it is taken back from the log. */
static bool is_taken_back(void) {
  bool empty = !logging || (!log_has_requests(scope_innermost->began) && !options.raw);
  histories_leave();
  if (empty && logging) cut(scope_innermost->began);
  return empty;
}

static void begin_strand(void) {
  if (++strand == UINT32_MAX) refuse(0, "more than %u strands: take a smaller input", UINT32_MAX);
}

static void sync_scope(struct scope *scope, uintptr_t place) {
  histories_next_strand();
  if (logging && is_idle() && idle_begin == scope->block_began.bytes) cut(scope->block_began);
  else tell(LOG_SYNC, place);
  scope->open = false;
  scope->ended = 0;
  states_sync(&scope->level);
  begin_strand();
  if (--open_blocks) return;
  if (options.epochs) histories_next_epoch();
  histories_look(false);
}
void scope_sync(uintptr_t place) { if (scope_top()->open) sync_scope(scope_innermost, place); }
void scope_sync_at(uint32_t depth, uintptr_t place) {
  if (scope_top()->depth == depth && scope_innermost->open) sync_scope(scope_innermost, place);
}

void scope_enter(enum scope_kind kind, uint32_t depth, uintptr_t place) {
  start_recording();
  struct log_place began = log_here();
  uint32_t site = place_site(place);
  if (logging) log_event(LOG_ENTER, site);
  push_scope(kind, depth, began, site);
}
void scope_leave(uintptr_t place) {
  if (scope_innermost->kind == SCOPE_ROOT || scope_innermost->kind == SCOPE_CHILD) refuse(place, "a scope was not left as it was entered");
  scope_sync(place);
  if (!is_taken_back()) tell(LOG_LEAVE, place);
  scope_innermost--;
}
static bool is_of_function(const struct scope *scope, uint32_t depth) {
  return scope->depth == depth && (scope->kind == SCOPE_FUNCTION || scope->kind == SCOPE_BLOCK);
}
bool scope_function_end(uint32_t depth, uintptr_t place) {
  bool is_left = is_of_function(scope_innermost, depth);
  while (is_left && is_of_function(scope_innermost - 1, depth)) scope_leave(place);
  const struct scope *around = is_left ? scope_innermost - 1 : scope_innermost;
  if (around->depth == depth && around->kind == SCOPE_CHILD) refuse(place, "a spawned statement was left by a return");
  if (is_left) scope_sync(place);
  return is_left;
}

void scope_spawn_here(uint32_t depth, uintptr_t place) {
  struct scope *spawner = scope_top();
  struct log_place began = log_here();
  uint32_t site = place_site(place);
  histories_next_strand();
  if (logging) log_event(LOG_SPAWN, site);
  if (!spawner->open) {
    spawner->open = true;
    spawner->block_began = began;
    if (!open_blocks++) histories_look(true);
  }
  push_scope(SCOPE_CHILD, depth, began, site);
  begin_strand();
}
void scope_spawn(uint32_t depth, uintptr_t place) {
  const struct scope *top = scope_top();
  if (top->depth != depth || top->kind == SCOPE_ROOT || top->kind == SCOPE_CHILD) scope_enter(SCOPE_FUNCTION, depth, place);
  scope_spawn_here(depth, place);
}

void scope_child_end(uint32_t depth, uintptr_t place) {
  struct scope *child = scope_innermost;
  if (child->kind != SCOPE_CHILD || child->depth != depth) refuse(place, "a spawned statement was not left as it was entered");
  scope_sync(place);
  histories_next_strand();
  bool idle = is_taken_back();
  uint32_t site = states_site(&child->level);
  if (logging && (!idle || !is_idle())) {
    if (idle) log_event(LOG_SPAWN, site);
    log_event(LOG_CHILD_END, place_site(place));
    if (idle) { idle_begin = child->began.bytes; idle_end = log_here().bytes; }
  }
  scope_innermost--;
  scope_innermost->ended = site;
  begin_strand();
}
void scope_close_all(uintptr_t place) {
  bool inside = false;
  while (scope_innermost->kind != SCOPE_ROOT) {
    if (scope_innermost->kind == SCOPE_CHILD) { inside = true; scope_child_end(scope_innermost->depth, place); } else scope_leave(place);
  }
  scope_sync(place);
  histories_next_strand();
  tell(LOG_END, 0);
  if (!inside) return;
  warn(0, "the program ended inside a spawned function: what would have followed was not seen");
  note_unseen("the program ended inside a spawned function: what would have followed was not seen");
}

void scope_reducer(enum reducer_operation operation, uint32_t reducer, uintptr_t place) {
  start_recording();
  if (operation == REDUCER_UNMADE) return;
  if (!logging) begin_log();
  if (reducer >= reducers) reducers = reducer + 1;
  log_reducer(operation, reducer, place_site(place));
}
uint32_t scope_reducers(void) { return reducers; }
