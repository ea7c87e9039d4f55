/* expect: refused; says: for which the compiler makes no call; no call, no child */
#include <cilk/cilk.h>
static int x, cells[3];
static int value(int n) { return n; }
static int *get(int n) { return cells + n; }
int main(void) {
  int y = 1, *p = &y;
  cilk_spawn __builtin_memset(cells, 0, sizeof cells); /* refused */
  cilk_sync;
  return x + y + *get(*p) - *get(*p) - value(y) - x;
}
