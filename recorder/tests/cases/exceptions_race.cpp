// expect: race; levels: all; what a catch of the same function does is not behind its children
#include <cilk/cilk.h>
int y;
static void g() { y = 1; } /* race: a */
static void thrower() { throw 5; }
static int call() {
  try {
    cilk_spawn g(); /* spawn: a */
    thrower();
  } catch (int k) {
    y = k; /* race: a */
  }
  cilk_sync;
  return y;
}
int main() { return call() - 5; }
