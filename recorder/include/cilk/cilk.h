/* The keywords of Cilk Plus and OpenCilk. Compiled by cilkcheck-cc they are recorded; compiled otherwise they are the serial elision, as which
   cilkcheck-cc reads a program too (__CILKCHECK_ELISION__), for the compiler's own errors and warnings. */
#ifndef CILKCHECK_CILK_CILK_H
#define CILKCHECK_CILK_CILK_H
#if defined __CILKCHECK__ && !defined __CILKCHECK_ELISION__
#define cilk_spawn _Cilk_spawn
#define cilk_sync _Cilk_sync
#define cilk_for _Cilk_for
#define cilk_scope _Cilk_scope
#define cilk_reducer _Cilk_reducer
#else
#define cilk_spawn
#define cilk_sync do {} while (0)
#define cilk_for for
#define cilk_scope
#define cilk_reducer(...)
#if !defined __cilk && !defined __CILKCHECK_ELISION__
#define _Cilk_spawn
#define _Cilk_sync do {} while (0)
#define _Cilk_for for
#endif
#endif
#endif
