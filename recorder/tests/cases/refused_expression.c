/* expect: refused; plain: no; a spawn in the middle of an expression */
#include <cilk/cilk.h>
static int f(int i) { return i; }
int main(void) {
  int x = 1 + cilk_spawn f(2); /* refused */
  cilk_sync;
  return x - 3;
}
