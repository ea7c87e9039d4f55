/* expect: race; levels: all; main is one straight line, and does not return */
#include <cilk/cilk.h>
#include <stdlib.h>
int x;
static void set(void) { x = 1; } /* race: a */
int main(void) {
  cilk_spawn set(); /* spawn: a */
  x = 2;            /* race: a */
  exit(x - 2);
}
