/* expect: refused; plain: no; and in a condition */
#include <cilk/cilk.h>
static int f(int i) { return i; }
int main(void) {
  if (cilk_spawn f(2)) /* refused */
    return 0;
  return 1;
}
