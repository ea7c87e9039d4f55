/* expect: race; plain: no; rand has a state */
#include <cilk/cilk.h>
#include <stdlib.h>
static int child(void) { return rand(); } /* race: a */
int main(void) {
  cilk_spawn child(); /* spawn: a */
  int got = rand();   /* race: a */
  cilk_sync;
  return got == 12345;
}
