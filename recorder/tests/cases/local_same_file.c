/* expect: race; a local whose address goes only to a function of the same file, which does not keep it */
#include <cilk/cilk.h>
int got;
static void set(int *at) { *at = 1; } /* race: a */
int main(void) {
  int x = 0;
  cilk_spawn set(&x); /* spawn: a */
  x = 2;              /* race: a */
  cilk_sync;
  got = x;
  return 0;
}
