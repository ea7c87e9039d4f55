/* OpenCilk's reducer of sums. Recorded, a use of it is refused: only OpenCilk's compiler makes views of a variable. */
#ifndef CILKCHECK_CILK_OPADD_REDUCER_H
#define CILKCHECK_CILK_OPADD_REDUCER_H
#if defined __CILKCHECK__ && !defined __CILKCHECK_ELISION__
#define opadd_reducer _Cilk_reducer
#elif defined __cplusplus
namespace cilk {
template <class T> using opadd_reducer = T;
}
#endif
#endif
