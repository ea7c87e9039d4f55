/* expect: race; levels: all; a store to a local that is dead in the serial elision: only the implied sync follows */
#include <cilk/cilk.h>
static void set(int *at) { *at = 1; } /* race: a */
static int call(int x) {
  cilk_spawn set(&x); /* spawn: a */
  x = 2;              /* race: a */
  return 1;
}
int main(void) { return call(0) - 1; }
