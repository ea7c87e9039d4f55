/* expect: refused; says: put their results into variables first; it may be a declaration */
#include <cilk/cilk.h>
static int x, cells[3];
static int value(int n) { return n; }
static int *get(int n) { return cells + n; }
int main(void) {
  int y = 1, *p = &y;
  get(*p)[1] = cilk_spawn value(get(1) != 0); /* refused */
  cilk_sync;
  return x + y + *get(*p) - *get(*p) - value(y) - x;
}
