/* expect: race; a reducer is read behind a sync of an inner function while a child of the outer one is outstanding */
#include <cilk/cilk.h>
#include <cilk/reducer_opadd.h>
static CILK_C_REDUCER_OPADD(sum, long, 0);
static long seen;
static void add(int i) { REDUCER_VIEW(sum) += i; }
static void call(void) {
  for (int i = 0; i < 3; i++)
    cilk_spawn add(i);
  cilk_sync;
}
int main(void) {
  CILK_C_REGISTER_REDUCER(sum); /* race: a */
  cilk_spawn add(7);
  call();
  seen = REDUCER_GET(sum); /* race: a */
  cilk_sync;
  return seen - 10;
}
