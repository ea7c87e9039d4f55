// expect: race; behind its guard a static object is an object like others
#include <cilk/cilk.h>
static int start() { return 3; }
static int next() {
  static int last = start();
  return ++last; /* race: a a */
}
int main() {
  int a = cilk_spawn next();
  int b = next();
  cilk_sync;
  return a + b - 9;
}
