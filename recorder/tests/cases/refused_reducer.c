/* expect: refused; plain: no; says: a reducer of OpenCilk; its compiler alone makes views of a variable */
#include <cilk/cilk.h>
static void zero(void *view) { *(long *)view = 0; }
static void plus(void *left, void *right) { *(long *)left += *(long *)right; }
long cilk_reducer(zero, plus) sum = 0; /* refused */
static void add(int n) { for (int i = 0; i < n; i++) sum += i; }
int main(void) {
  cilk_spawn add(3);
  add(4);
  cilk_sync;
  return sum - 9;
}
