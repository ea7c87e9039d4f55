// expect: clean; the first use of a function's static object is made once, under a guard
#include <cilk/cilk.h>
struct T { int v; T() : v(3) {} };
static int f() { static T t; return t.v; }
int main() {
  for (int i = 0; i < 3; i++)
    cilk_spawn f();
  f();
  cilk_sync;
  return f() - 3;
}
