/* expect: race; a variable of the thread, which strands of one worker share */
#include <cilk/cilk.h>
__thread int t;
static void set(void) { t = 1; } /* race: a */
int main(void) {
  cilk_spawn set(); /* spawn: a */
  t = 2;            /* race: a */
  cilk_sync;
  return t - 2;
}
