// expect: race; a reference to const is no copy
#include <cilk/cilk.h>
int out;
static void f(const int &x) { out = x; } /* race: a */
int main() {
  int i = 0;
  cilk_spawn f(i); /* spawn: a */
  i = 2;           /* race: a */
  cilk_sync;
  return out;
}
