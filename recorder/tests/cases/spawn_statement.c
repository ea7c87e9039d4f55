/* expect: clean; a spawn of what is no call is a spawned block, as in OpenCilk: all of it is the child's */
#include <cilk/cilk.h>
static int a[8], n = 1;
static int twice(int k) { return 2 * k; }
int main(void) {
  cilk_spawn a[0] = twice(3);
  cilk_spawn a[1]++;
  cilk_spawn for (int i = 2; i < 6; i++) a[i] = twice(i);
  cilk_spawn if (n) a[6] = 4; else a[6] = 5;
  cilk_spawn (void)twice(n);
  cilk_spawn twice(1), a[7] = twice(2);
  cilk_sync;
  n = 2;
  return a[0] + a[1] + a[2] + a[5] + a[6] + a[7] - (6 + 1 + 4 + 10 + 4 + 4);
}
