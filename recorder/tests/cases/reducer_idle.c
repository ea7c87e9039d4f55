/* expect: race; a child that does nothing with the reducer is a peer of its read all the same */
#include <cilk/cilk.h>
#include <cilk/reducer_opadd.h>
static CILK_C_REDUCER_OPADD(sum, long, 0);
static long seen, other;
static void nothing(void) {}
static void write(void) { other = 1; }
int main(void) {
  CILK_C_REGISTER_REDUCER(sum); /* race: a */
  cilk_spawn write();
  cilk_sync;
  cilk_spawn nothing();
  cilk_spawn nothing();
  seen = REDUCER_GET(sum); /* race: a */
  cilk_sync;
  return seen;
}
