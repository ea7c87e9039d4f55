/* expect: race; levels: all; a strand reads and then writes: both lines race, and the one that reads is where the mistake is */
#include <cilk/cilk.h>
int x, y;
static void child(void) { x = 1; } /* race: a b */
int main(void) {
  cilk_spawn child(); /* spawn: a b */
  y = x;              /* race: a */
  x = 2;              /* race: b */
  cilk_sync;
  return y - 1;
}
