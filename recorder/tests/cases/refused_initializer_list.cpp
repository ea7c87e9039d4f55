// expect: refused; says: it begins a statement, or stands behind the = of one; assign in the body
#include <cilk/cilk.h>
static int one() { return 1; }
struct holder {
  int x;
  holder() : x(cilk_spawn one()) {} /* refused */
};
int main() { return holder().x - 1; }
