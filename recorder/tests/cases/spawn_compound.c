/* expect: clean; levels: all; each x is updated by one child at a time */
#include <cilk/cilk.h>
static int one(void) { return 1; }
int main(void) {
  int x = 1, y = 2, i = 0, z[3] = {3, 4, 5};
  x += cilk_spawn one();
  y <<= cilk_spawn one();
  z[i++] -= cilk_spawn one();
  z[i++] |= cilk_spawn one();
  i = 2;
  cilk_sync;
  x += cilk_spawn one();
  cilk_sync;
  return x + y + z[0] + z[1] + z[2] + i - (3 + 4 + 2 + 5 + 5 + 2);
}
