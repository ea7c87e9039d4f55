/* expect: refused; says: cilk_spawn of what is no call; a cast is no call */
#include <cilk/cilk.h>
static int x, cells[3];
static int value(int n) { return n; }
static int *get(int n) { return cells + n; }
int main(void) {
  int y = 1, *p = &y;
  x = cilk_spawn (char)value(1); /* refused */
  cilk_sync;
  return x + y + *get(*p) - *get(*p) - value(y) - x;
}
