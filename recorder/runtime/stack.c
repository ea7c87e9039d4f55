/* The frames of the running stack. stack.h states the invariants. */
#define _GNU_SOURCE
#include "stack.h"
#include "abi.h"
#include "scopes.h"
#include <string.h>
#include <sys/resource.h>

#define MOST_FRAMES (1u << 24)
#define THREAD_FRAMES (1u << 20)
#define MOST_DYNAMICS (1u << 20)               /* more have no name */
#define LARGEST_STACK ((uintptr_t)1 << 32)

/* Locals of variable length. */
struct dynamic { uintptr_t from, to, place; };

struct stack stack_now;

static struct stack make_stack(uint32_t most, uintptr_t low, size_t span) {
  struct frame *frames = reserve(sizeof *frames * most);
  struct dynamic *dynamics = reserve(sizeof *dynamics * MOST_DYNAMICS);
  return (struct stack){.frames = frames, .dynamics = dynamics, .most = most, .low = low, .span = span, .touched = UINTPTR_MAX};
}
void stack_begin(void) {
  struct rlimit limit;
  uintptr_t span = LARGEST_STACK;
  if (!getrlimit(RLIMIT_STACK, &limit) && limit.rlim_cur < span) span = limit.rlim_cur;
  uintptr_t here = (uintptr_t)__builtin_frame_address(0) & ~(uintptr_t)4095, above = (uintptr_t)8 << 20;
  stack_now = make_stack(MOST_FRAMES, here - span, span + above);
}

struct stack stack_current(void) { return stack_now; }
void stack_use(struct stack stack) { stack_now = stack; }
struct stack stack_new(uintptr_t low, size_t span) {
  uint32_t depth = stack_now.depth;
  struct stack stack = make_stack(depth + THREAD_FRAMES, low, span);
  memcpy(stack.frames, stack_now.frames, sizeof *stack.frames * depth);
  stack.depth = stack.first = depth;
  return stack;
}
void stack_free(struct stack stack) {
  unreserve(stack.frames, sizeof *stack.frames * stack.most);
  unreserve(stack.dynamics, sizeof *stack.dynamics * MOST_DYNAMICS);
}
uint32_t stack_depth(void) { return stack_now.depth; }

static inline void end_below(uintptr_t top) {
  if (stack_now.touched >= top) return;
  uintptr_t from = stack_now.touched;
  stack_now.touched = top;
  while (stack_now.dynamic_count && stack_now.dynamics[stack_now.dynamic_count - 1].from < top) stack_now.dynamic_count--;
  end_lives(from, top);
}

static inline void push_frame(const void *top, const void *locals, const struct cilkcheck_frame *row) {
  stack_now.frames[stack_now.depth++] = (struct frame){(uintptr_t)top, (uintptr_t)locals, row, PLACE};
}
/* A function is entered where more is to be done than to push its frame. (Before the recording begins, that is so: `touched` is 0.) */
static RARE void enter_function(const void *top, const void *locals, const struct cilkcheck_frame *row) {
  start_recording();
  if (stack_now.depth == stack_now.most) refuse(PLACE, "more than %u calls at once", stack_now.most);
  end_below((uintptr_t)top);
  push_frame(top, locals, row);
}
/* What called the function may call again before it sets the place: a function of the library. */
static inline void pop_frame(void) { __cilkcheck_place = (site_row)stack_now.frames[--stack_now.depth].caller; }
/* A function ends in which a scope begun, or that accessed its frame, or among tasks of OpenMP. */
static FLAT __attribute__((noinline)) void leave_function(uintptr_t place) {
  bool is_left = scope_innermost->depth == stack_now.depth && scope_function_end(stack_now.depth, place);
  if (stack_now.depth == stack_now.first) refuse(place, "a function is left that was not entered");
  const struct scope *around = scope_innermost - is_left;
  uintptr_t top = stack_now.frames[stack_now.depth - 1].top;
  pop_frame();
  if (__builtin_expect(around->open && around->marks & SCOPE_OF_TASKS, 0)) openmp_function_end(stack_now.touched, top, place);
  end_below(top);
  if (is_left) scope_leave(place);
}

void __cilkcheck_enter(const void *top, const void *locals, const struct cilkcheck_frame *row) {
  if (__builtin_expect(stack_now.touched < (uintptr_t)top || stack_now.depth == stack_now.most, 0)) enter_function(top, locals, row);
  else push_frame(top, locals, row);
}
void __cilkcheck_leave(void) {
  const struct scope *around = scope_innermost;
  uint32_t depth = stack_now.depth;
  bool is_used = around->depth == depth || (around->open && around->marks & SCOPE_OF_TASKS);
  if (depth && !is_used && stack_now.touched >= stack_now.frames[depth - 1].top) pop_frame();
  else leave_function(PLACE);
}

void __cilkcheck_fresh(const void *at, size_t bytes) {
  start_recording();
  end_lives((uintptr_t)at, (uintptr_t)at + bytes);
}
void __cilkcheck_dynamic(const void *at, size_t bytes, site_row site) {
  uintptr_t from = (uintptr_t)at, to = from + bytes;
  __cilkcheck_fresh(at, bytes);
  while (stack_now.dynamic_count && stack_now.dynamics[stack_now.dynamic_count - 1].from < to) stack_now.dynamic_count--;
  stack_touch(from);                                               /* so that the function's end gives it up */
  if (stack_now.dynamic_count < MOST_DYNAMICS) stack_now.dynamics[stack_now.dynamic_count++] = (struct dynamic){from, to, (uintptr_t)site};
}

/* ---- what lies at an address ---- */

static const struct dynamic *dynamic_at(uintptr_t address) {
  uint32_t low = 0, high = stack_now.dynamic_count;                /* the first one that begins at the address or below */
  while (low < high) { uint32_t middle = (low + high) / 2; if (stack_now.dynamics[middle].from > address) low = middle + 1; else high = middle; }
  return low < stack_now.dynamic_count && address < stack_now.dynamics[low].to ? &stack_now.dynamics[low] : NULL;
}
bool stack_local_of(uintptr_t address, struct local *local) {
  if (address - stack_now.low >= stack_now.span) return false;
  uint32_t low = stack_now.first, high = stack_now.depth;          /* the innermost frame whose top is above */
  while (low < high) { uint32_t middle = (low + high) / 2; if (stack_now.frames[middle].top > address) low = middle + 1; else high = middle; }
  if (low == stack_now.first) return false;
  const struct frame *frame = &stack_now.frames[low - 1];
  *local = (struct local){.frame = *frame, .base = frame->top};
  const struct dynamic *dynamic = dynamic_at(address);
  if (dynamic) {
    local->dynamic = dynamic->place;
    local->base = dynamic->from;
    return true;
  }
  const struct cilkcheck_local *locals = cilkcheck_target(&frame->row->locals);
  for (uint32_t i = 0; i < frame->row->local_count; i++) {
    if (address - frame->locals - locals[i].offset >= locals[i].bytes) continue;
    local->number = i + 1;
    local->base = frame->locals + locals[i].offset;
    break;
  }
  return true;
}
