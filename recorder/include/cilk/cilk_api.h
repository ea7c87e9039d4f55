/* The functions of Cilk Plus that ask about workers. A recorded run, and the serial elision, has one. */
#ifndef CILKCHECK_CILK_CILK_API_H
#define CILKCHECK_CILK_CILK_API_H
enum { __CILKRTS_SET_PARAM_SUCCESS = 0, __CILKRTS_SET_PARAM_UNIMP = 1, __CILKRTS_SET_PARAM_XRANGE = 2, __CILKRTS_SET_PARAM_INVALID = 3, __CILKRTS_SET_PARAM_LATE = 4 };
static inline void __cilkrts_init(void) {}
static inline void __cilkrts_end_cilk(void) {}
static inline int __cilkrts_set_param(const char *name, const char *value) { (void)name; (void)value; return __CILKRTS_SET_PARAM_SUCCESS; }
static inline int __cilkrts_get_nworkers(void) { return 1; }
static inline int __cilkrts_get_total_workers(void) { return 1; }
static inline int __cilkrts_get_worker_number(void) { return 0; }
static inline int __cilkrts_get_force_reduce(void) { return 0; }
static inline int __cilkrts_is_initialized(void) { return 1; }
static inline int __cilkrts_running_on_workers(void) { return 1; }
#endif
