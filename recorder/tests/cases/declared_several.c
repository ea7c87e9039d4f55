/* expect: refused; several names are declared, one of them by a spawn */
#include <cilk/cilk.h>
static long f(long i) { return i; }
int main(void) {
  long x = cilk_spawn f(1), y = f(2); /* refused */
  cilk_sync;
  return x + y - 3;
}
