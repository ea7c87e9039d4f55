/* expect: race; a child that ended before a reducer was made, and is not synced with, is a peer of its reads all the same */
#include <cilk/cilk.h>
#include <cilk/reducer_opadd.h>
static CILK_C_REDUCER_OPADD(sum, long, 0);
static long seen;
static void nothing(void) {}
static void work(void) {
  cilk_spawn nothing();
  CILK_C_REGISTER_REDUCER(sum); /* race: a */
  cilk_sync;
  seen = REDUCER_GET(sum); /* race: a */
}
static void none_before(void) {
  cilk_spawn nothing();
  cilk_sync;
  work();
}
int main(void) {
  cilk_spawn none_before();
  cilk_sync;
  return (int)seen;
}
