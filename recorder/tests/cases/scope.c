/* expect: race; cilk_scope syncs its own children; a spawned block shares the locals around it */
#include <cilk/cilk.h>
int x, y, z;
static void set(int *p) { *p = 1; } /* race: b */
int main(void) {
  cilk_spawn set(&z); /* spawn: b */
  cilk_scope {
    cilk_spawn set(&x);
    set(&y);
  }
  x = 2;
  z = 2; /* race: b */
  cilk_sync;
  int sum = 0;
  for (int i = 0; i < 2; i++)
    cilk_spawn { sum++; } /* race: a a, spawn: a */
  cilk_sync;
  return sum - 2;
}
