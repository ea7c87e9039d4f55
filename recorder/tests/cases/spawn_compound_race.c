/* expect: race; levels: all; x += f() reads and writes x behind the call, as the elision does: both are the child's */
#include <cilk/cilk.h>
static int one(void) { return 1; }
int main(void) {
  int x = 1, y = 2, z[2] = {3, 4};
  x += cilk_spawn one(); /* race: a, spawn: a */
  int seen = x; /* race: a */
  cilk_sync;
  y *= cilk_spawn one(); /* race: b, spawn: b */
  y = 5; /* race: b */
  cilk_sync;
  z[1] -= cilk_spawn one(); /* race: c, spawn: c */
  z[0] = 6;
  z[1] = 7; /* race: c */
  cilk_sync;
  return seen + x + y + z[0] + z[1] - (2 + 2 + 5 + 6 + 7);
}
