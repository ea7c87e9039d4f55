// expect: race; levels: all; a callee that always throws is a child up to where it throws
#include <cilk/cilk.h>
static int x, y;
[[noreturn]] static void fail(int k) { x = k; throw k; } /* race: a */
static void set(int k) { y = k; } /* race: b */
int main() {
  try {
    cilk_spawn set(1); /* spawn: b */
    y = 2; /* race: b */
    cilk_spawn fail(3);
  } catch (int) {
  }
  try {
    cilk_spawn { x = 5; } /* race: a, spawn: a */
    cilk_spawn fail(4);
  } catch (int) {
  }
  return x - 4;
}
