/* expect: race; a pointer to a function that an earlier child writes is read by the spawner, not by the child */
#include <cilk/cilk.h>
static int one(void) { return 1; }
static int two(void) { return 2; }
static int (*callee)(void) = one;
static void set(void) { callee = two; } /* race: a */
int main(void) {
  cilk_spawn set(); /* spawn: a */
  int x = cilk_spawn callee(); /* race: a */
  cilk_sync;
  return x - 2;
}
