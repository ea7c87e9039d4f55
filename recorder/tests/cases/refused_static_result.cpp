// expect: refused; says: initialized once; the second time there is no call
#include <cilk/cilk.h>
static int one() { return 1; }
static int kept() {
  static int x = cilk_spawn one(); /* refused */
  cilk_sync;
  return x;
}
int main() { return kept() + kept() - 2; }
