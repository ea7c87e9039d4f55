/* expect: race; a cilk_for syncs its rounds, not the children that were spawned before */
#include <cilk/cilk.h>
int x, a[8];
static void set(void) { x = 1; } /* race: a b */
int main(void) {
  cilk_spawn set(); /* spawn: a b */
  cilk_for (int i = 0; i < 8; i++)
    a[i] = x; /* race: a */
  x = a[3];   /* race: b */
  cilk_sync;
  return x - 1;
}
