/* OpenMP's functions for programs (omp_*), and clang's calls that are no spawn and sync: each of these is refused where it is called. See
   openmp.h. */
#define _GNU_SOURCE
#include "openmp.h"
#include <time.h>

#define ANSWERS(result, name, parameters, answer) \
  result name parameters;                         \
  result name parameters { return answer; }
#define TAKES(name, parameters, does) \
  void name parameters;               \
  void name parameters { does; }

/* ---- threads ---- */

int omp_get_thread_num(void);
int omp_get_thread_num(void) {
  if (!team_exists()) return 0;
  if (scope_top()->marks & MARK_EXPLICIT) refuse(PLACE, "omp_get_thread_num inside of a task: which thread runs it is not determined");
  team_asked_thread();
  return team_thread(team_level());
}
ANSWERS(int, omp_get_num_threads, (void), team_threads(team_level()))
ANSWERS(int, omp_get_max_threads, (void), team_next_threads())
ANSWERS(int, omp_get_num_procs, (void), team_next_threads())
ANSWERS(int, omp_get_thread_limit, (void), 64)
ANSWERS(int, omp_in_parallel, (void), team_active_level() > 0)
ANSWERS(int, omp_in_final, (void), (scope_top()->marks & MARK_FINAL) != 0)
ANSWERS(int, omp_get_level, (void), team_level())
ANSWERS(int, omp_get_active_level, (void), team_active_level())
ANSWERS(int, omp_get_ancestor_thread_num, (int level), team_thread(level))
ANSWERS(int, omp_get_team_size, (int level), team_threads(level))
ANSWERS(int, omp_get_dynamic, (void), 0)
ANSWERS(int, omp_get_nested, (void), team_most_levels() > 1)
ANSWERS(int, omp_get_max_active_levels, (void), team_most_levels())
ANSWERS(int, omp_get_supported_active_levels, (void), 1000)
TAKES(omp_set_num_threads, (int threads), team_set_threads(threads))
TAKES(omp_set_dynamic, (int on), (void)on)
TAKES(omp_set_nested, (int on), team_set_most_levels(on ? 1000 : 1))
TAKES(omp_set_max_active_levels, (int levels), team_set_most_levels(levels))

/* ---- what does not depend on threads ---- */

static double seconds(clockid_t clock) {
  struct timespec now;
  clock_gettime(clock, &now);
  return (double)now.tv_sec + (double)now.tv_nsec * 1e-9;
}
ANSWERS(double, omp_get_wtime, (void), seconds(CLOCK_MONOTONIC))
ANSWERS(double, omp_get_wtick, (void), 1e-9)
ANSWERS(int, omp_get_cancellation, (void), 0)
ANSWERS(int, omp_get_proc_bind, (void), 0)
ANSWERS(int, omp_get_max_task_priority, (void), 0)
ANSWERS(int, omp_get_num_teams, (void), 1)
ANSWERS(int, omp_get_team_num, (void), 0)
ANSWERS(int, omp_get_num_devices, (void), 0)
ANSWERS(int, omp_get_default_device, (void), 0)
ANSWERS(int, omp_get_initial_device, (void), 0)
ANSWERS(int, omp_is_initial_device, (void), 1)
ANSWERS(int, omp_get_num_places, (void), 0)
TAKES(omp_init_lock, (void *lock), (void)lock)
TAKES(omp_destroy_lock, (void *lock), (void)lock)
TAKES(omp_init_nest_lock, (void *lock), (void)lock)
TAKES(omp_destroy_nest_lock, (void *lock), (void)lock)

/* ---- what is refused ---- */

#define REFUSED(name, why)                                         \
  _Noreturn void name(void);                                       \
  _Noreturn void name(void) { refuse(PLACE, "OpenMP's " why " (" #name ") is not spawn and sync"); }
#define SECTION "critical section"
#define LOCK "lock"
#define LOOP "worksharing loop"
#define SECTIONS "sections"
#define REDUCTION "reduction"
#define CANCEL "cancellation"
#define DEPEND "depend"
#define COPY "copyprivate"
#define ORDERED "ordered"
#define PRIVATE "threadprivate"
#define ATOMIC "atomic on a type without atomic instructions"
#define TARGET "target or teams"
#define ALLOCATOR "allocator"

REFUSED(omp_set_lock, LOCK)
REFUSED(omp_test_lock, LOCK)
REFUSED(omp_unset_lock, LOCK)
REFUSED(omp_set_nest_lock, LOCK)
REFUSED(omp_test_nest_lock, LOCK)
REFUSED(omp_unset_nest_lock, LOCK)
REFUSED(omp_init_lock_with_hint, LOCK)
REFUSED(omp_init_nest_lock_with_hint, LOCK)
REFUSED(omp_fulfill_event, "detach")
REFUSED(omp_set_schedule, LOOP)
REFUSED(omp_get_schedule, LOOP)

REFUSED(__kmpc_critical, SECTION)
REFUSED(__kmpc_critical_with_hint, SECTION)
REFUSED(__kmpc_end_critical, SECTION)
REFUSED(__kmpc_atomic_start, ATOMIC)
REFUSED(__kmpc_atomic_end, ATOMIC)
REFUSED(__kmpc_copyprivate, COPY)
REFUSED(__kmpc_omp_task_with_deps, DEPEND)
REFUSED(__kmpc_omp_wait_deps, DEPEND)
REFUSED(__kmpc_omp_taskwait_deps_51, DEPEND)
REFUSED(__kmpc_task_allow_completion_event, "detach")
REFUSED(__kmpc_omp_reg_task_with_affinity, "affinity")
REFUSED(__kmpc_cancel, CANCEL)
REFUSED(__kmpc_cancellationpoint, CANCEL)
REFUSED(__kmpc_cancel_barrier, CANCEL)
REFUSED(__kmpc_ordered, ORDERED)
REFUSED(__kmpc_end_ordered, ORDERED)
REFUSED(__kmpc_reduce, REDUCTION)
REFUSED(__kmpc_reduce_nowait, REDUCTION)
REFUSED(__kmpc_end_reduce, REDUCTION)
REFUSED(__kmpc_end_reduce_nowait, REDUCTION)
REFUSED(__kmpc_taskred_init, REDUCTION)
REFUSED(__kmpc_taskred_modifier_init, REDUCTION)
REFUSED(__kmpc_task_reduction_init, REDUCTION)
REFUSED(__kmpc_task_reduction_modifier_init, REDUCTION)
REFUSED(__kmpc_task_reduction_modifier_fini, REDUCTION)
REFUSED(__kmpc_task_reduction_get_th_data, REDUCTION)
REFUSED(__kmpc_for_static_init_4, LOOP)
REFUSED(__kmpc_for_static_init_4u, LOOP)
REFUSED(__kmpc_for_static_init_8, LOOP)
REFUSED(__kmpc_for_static_init_8u, LOOP)
REFUSED(__kmpc_for_static_fini, LOOP)
REFUSED(__kmpc_dispatch_init_4, LOOP)
REFUSED(__kmpc_dispatch_init_4u, LOOP)
REFUSED(__kmpc_dispatch_init_8, LOOP)
REFUSED(__kmpc_dispatch_init_8u, LOOP)
REFUSED(__kmpc_dispatch_next_4, LOOP)
REFUSED(__kmpc_dispatch_next_4u, LOOP)
REFUSED(__kmpc_dispatch_next_8, LOOP)
REFUSED(__kmpc_dispatch_next_8u, LOOP)
REFUSED(__kmpc_dispatch_fini_4, LOOP)
REFUSED(__kmpc_dispatch_fini_4u, LOOP)
REFUSED(__kmpc_dispatch_fini_8, LOOP)
REFUSED(__kmpc_dispatch_fini_8u, LOOP)
REFUSED(__kmpc_dispatch_deinit, LOOP)
REFUSED(__kmpc_doacross_init, LOOP)
REFUSED(__kmpc_doacross_wait, LOOP)
REFUSED(__kmpc_doacross_post, LOOP)
REFUSED(__kmpc_doacross_fini, LOOP)
REFUSED(__kmpc_threadprivate, PRIVATE)
REFUSED(__kmpc_threadprivate_cached, PRIVATE)
REFUSED(__kmpc_threadprivate_register, PRIVATE)
REFUSED(__kmpc_fork_teams, TARGET)
REFUSED(__kmpc_push_num_teams, TARGET)
REFUSED(__kmpc_push_num_teams_51, TARGET)
REFUSED(__kmpc_set_thread_limit, TARGET)
REFUSED(__kmpc_omp_target_task_alloc, TARGET)
REFUSED(__kmpc_push_target_tripcount_mapper, TARGET)
REFUSED(__kmpc_dist_dispatch_init_4, TARGET)
REFUSED(__kmpc_dist_dispatch_init_4u, TARGET)
REFUSED(__kmpc_dist_dispatch_init_8, TARGET)
REFUSED(__kmpc_dist_dispatch_init_8u, TARGET)
REFUSED(__kmpc_dist_for_static_init_4, TARGET)
REFUSED(__kmpc_dist_for_static_init_4u, TARGET)
REFUSED(__kmpc_dist_for_static_init_8, TARGET)
REFUSED(__kmpc_dist_for_static_init_8u, TARGET)
REFUSED(__kmpc_alloc, ALLOCATOR)
REFUSED(__kmpc_aligned_alloc, ALLOCATOR)
REFUSED(__kmpc_free, ALLOCATOR)
REFUSED(__kmpc_init_allocator, ALLOCATOR)
REFUSED(__kmpc_destroy_allocator, ALLOCATOR)
REFUSED(__kmpc_error, "error")
