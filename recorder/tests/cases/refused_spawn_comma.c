/* expect: refused; says: a cilk_spawn behind a comma; the first is the spawner's */
#include <cilk/cilk.h>
static int x, cells[3];
static int value(int n) { return n; }
static int *get(int n) { return cells + n; }
int main(void) {
  int y = 1, *p = &y;
  x = 1, y = cilk_spawn value(1); /* refused */
  cilk_sync;
  return x + y + *get(*p) - *get(*p) - value(y) - x;
}
