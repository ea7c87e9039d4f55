/* expect: clean; updates in children, reads where nothing is outstanding */
#include <cilk/cilk.h>
#include <cilk/reducer_opadd.h>
static CILK_C_REDUCER_OPADD(sum, long, 0);
static void add(int i) { REDUCER_VIEW(sum) += i; }
static void call(void) {
  for (int i = 0; i < 3; i++)
    cilk_spawn add(i);
  cilk_sync;
}
int main(void) {
  CILK_C_REGISTER_REDUCER(sum);
  REDUCER_VIEW(sum) = 5;
  cilk_for (int i = 0; i < 9; i++)
    add(i);
  call();
  long got = REDUCER_VIEW(sum);
  CILK_C_UNREGISTER_REDUCER(sum);
  return got - 44;
}
