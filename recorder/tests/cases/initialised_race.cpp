// expect: race; and it is read before the sync
#include <cilk/cilk.h>
static int f(int i) { return i; }
static int call() {
  int y = cilk_spawn f(1); /* race: a, spawn: a */
  return y;                /* race: a */
}
int main() { return call() - 1; }
