// expect: refused; says: it begins a statement, or stands behind the = of one; write it behind an =
#include <cilk/cilk.h>
static int one() { return 1; }
int main() {
  int x{cilk_spawn one()}; /* refused */
  cilk_sync;
  return x - 1;
}
