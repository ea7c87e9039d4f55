/* The serial elision, as in Cilk Plus: the keywords mean nothing. */
#ifndef CILKCHECK_CILK_CILK_STUB_H
#define CILKCHECK_CILK_CILK_STUB_H
#ifndef __CILKCHECK_ELISION__
#undef _Cilk_spawn
#undef _Cilk_sync
#undef _Cilk_for
#define _Cilk_spawn
#define _Cilk_sync do {} while (0)
#define _Cilk_for for
#endif
#endif
