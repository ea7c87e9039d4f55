/* What the rewriter's marks become. abi.h says what each call means. */
#include "abi.h"
#include "recorder.h"
#include "stack.h"

const char __cilkcheck_version_1 = 1;
site_row __cilkcheck_place;
static bool outlined;

FLAT void __cilkcheck_child_begin(site_row site, ...) { scope_spawn(stack_now.depth, (uintptr_t)site); }
FLAT void __cilkcheck_child_end(site_row site) { scope_child_end(stack_now.depth, (uintptr_t)site); }
FLAT void __cilkcheck_sync(site_row site) { scope_sync_at(stack_now.depth, (uintptr_t)site); }
void __cilkcheck_scope_begin(site_row site) { scope_enter(SCOPE_BLOCK, stack_now.depth, (uintptr_t)site); }
void __cilkcheck_scope_left(site_row site) {
  const struct scope *scope = scope_top();
  if (scope->kind == SCOPE_FUNCTION && scope->depth == stack_now.depth) { scope_leave((uintptr_t)site); scope = scope_top(); }
  if (scope->kind != SCOPE_BLOCK || scope->depth != stack_now.depth) refuse((uintptr_t)site, "a cilk_for or cilk_scope was not left at its end");
  scope_leave((uintptr_t)site);
}
void __cilkcheck_outlined(site_row site) { (void)site; outlined = true; }
bool outlined_next(void) {
  bool is = outlined;
  outlined = false;
  return is;
}
void __cilkcheck_hide(site_row site, int on) { (void)site; hide_accesses(on != 0); }
