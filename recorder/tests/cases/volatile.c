/* expect: race; levels: all; volatile is no protection */
#include <cilk/cilk.h>
volatile int done;
static void finish(void) { done = 1; } /* race: a */
int main(void) {
  cilk_spawn finish(); /* spawn: a */
  int seen = done;     /* race: a */
  cilk_sync;
  return seen - 1;
}
