/* Children of C++, and exceptions. A spawn is a statement with an object of the rewriter's: it is made before the call's arguments and destroyed
   behind the call, by an exception as well (abi.h). An exception may leave the statement before the call: then there is no child. */
#include "abi.h"
#include "scopes.h"

/* How many exceptions were on their way when the statement began; and the number of the child's scope, or 0 before it has begun. */
struct child { uint32_t exceptions, scope; };
_Static_assert(sizeof(struct child) <= sizeof(void *), "a child's state has one pointer's room");

struct exceptions { void *caught; unsigned uncaught; };
extern struct exceptions *__cxa_get_globals(void) __attribute__((weak));
static uint32_t scope_now(void) { return (uint32_t)(scope_innermost - scope_outermost); }
static uint32_t exceptions_now(void) { return __cxa_get_globals ? __cxa_get_globals()->uncaught : 0; }

void __cilkcheck_child_awaited(site_row site, void *state) {
  (void)site;
  *(struct child *)state = (struct child){.exceptions = exceptions_now()};
}
void __cilkcheck_child_begins(site_row site, void *state, ...) {
  scope_spawn(stack_depth(), (uintptr_t)site);
  ((struct child *)state)->scope = scope_now();
}
void __cilkcheck_child_left(site_row site, void *state) {
  struct child *child = state;
  if (!child->scope || scope_now() < child->scope) return;        /* no child, or it was unwound */
  child->scope = 0;
  scope_child_end(stack_depth(), (uintptr_t)site);
  if (exceptions_now() > child->exceptions) scope_sync_at(stack_depth(), (uintptr_t)site);
}

/* The scopes of a function that an exception leaves sync before its locals end, as at a return; a child that the exception comes from ends first.
   The function's blocks are still to be left where they end, so that empty ones take their places. */
void __cilkcheck_unwound(site_row site, int selector) {
  uint32_t depth = stack_depth(), blocks = 0;
  const struct scope *scope = scope_top();
  if (selector) return;
  if (scope->kind == SCOPE_CHILD && scope->depth == depth) scope_child_end(depth, (uintptr_t)site);
  for (; (scope = scope_top())->kind == SCOPE_BLOCK && scope->depth == depth; blocks++) {
    bool is_outermost = scope[-1].depth != depth || (scope[-1].kind != SCOPE_BLOCK && scope[-1].kind != SCOPE_FUNCTION);
    if (is_outermost) break;
    scope_leave((uintptr_t)site);
  }
  scope_sync_at(depth, (uintptr_t)site);
  while (blocks--) scope_enter(SCOPE_BLOCK, depth, (uintptr_t)site);
}
