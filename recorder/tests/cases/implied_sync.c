/* expect: clean; a function syncs at its end, whatever its caller has outstanding */
#include <cilk/cilk.h>
int x, y;
static void set_x(void) { x = 1; }
static void set_y(void) { y = 1; }
static void call(int n) { cilk_spawn set_x(); if (n) return; x += 0 * y; }
int main(void) {
  cilk_spawn set_y();
  call(1);
  x = 2;
  cilk_sync;
  y = x;
  return y - 2;
}
