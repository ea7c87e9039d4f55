/* expect: race; levels: all; neighbouring bit-fields are one location, as the C standard says */
#include <cilk/cilk.h>
struct { unsigned a : 3, b : 5; } x;
static void set(void) { x.a = 1; } /* race: a */
int main(void) {
  cilk_spawn set(); /* spawn: a */
  x.b = 2;          /* race: a */
  cilk_sync;
  return x.a - 1;
}
