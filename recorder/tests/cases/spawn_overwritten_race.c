/* expect: race; levels: all; children write a variable that nobody reads */
#include <cilk/cilk.h>
struct pair { long a, b, c; };
static int twice(int k) { return 2 * k; }
static struct pair make(int k) { return (struct pair){k, k, k}; }
int main(void) {
  int x, y[2];
  struct pair p;
  for (int i = 0; i < 3; i++) x = cilk_spawn twice(i); /* race: x x, spawn: x */
  for (int i = 0; i < 3; i++) y[1] = cilk_spawn twice(i); /* race: y y, spawn: y */
  for (int i = 0; i < 3; i++) p = cilk_spawn make(i); /* race: p p, spawn: p */
  cilk_sync;
  return 0;
}
