/* expect: refused; says: a declarator behind that of a cilk_spawn; the second would be the child's */
#include <cilk/cilk.h>
static int x, cells[3];
static int value(int n) { return n; }
static int *get(int n) { return cells + n; }
int main(void) {
  int y = 1, *p = &y;
  int a = cilk_spawn value(1), b = value(2); /* refused */
  cilk_sync;
  return x + y + *get(*p) - *get(*p) - value(y) - x;
}
