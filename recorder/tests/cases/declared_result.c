/* expect: race; a declared result is written by the child and read before the sync */
#include <cilk/cilk.h>
static long f(int i) { return i; }
int main(void) {
  long x = cilk_spawn f(1); /* race: a, spawn: a */
  long y = x + 1;           /* race: a */
  cilk_sync;
  return x + y - 3;
}
