/* expect: race; the value of a return is read before the implied sync */
#include <cilk/cilk.h>
static int one(void) { return 1; }
static int call(void) {
  int x = 0;
  x = cilk_spawn one(); /* race: a, spawn: a */
  return x;             /* race: a */
}
int main(void) { return call() - 1; }
