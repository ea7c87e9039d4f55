// expect: race; default arguments are the spawner's
#include <cilk/cilk.h>
static int x, y;
static int next() { return ++y; }
static int add(int a, int b = next()) { x = a + b; return x; } /* race: a */
int main() {
  int r = cilk_spawn add(1); /* spawn: a */
  y = 5;
  int seen = x; /* race: a */
  cilk_sync;
  return r + seen - 4;
}
