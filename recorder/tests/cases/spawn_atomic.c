/* expect: clean; levels: all; the result goes into an atomic variable, which the spawner reads as one */
#include <cilk/cilk.h>
static _Atomic int x;
static _Atomic double y;
static int one(void) { return 1; }
int main(void) {
  x = cilk_spawn one();
  int seen = x;
  x += cilk_spawn one();
  y += cilk_spawn one();
  seen += x + (int)y;
  cilk_sync;
  return seen + x - (1 + 3 + 2);
}
