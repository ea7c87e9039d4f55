/* expect: race; setenv changes what getenv looks through */
#include <cilk/cilk.h>
#include <stdlib.h>
static int asked(void) { return getenv("HOME") != NULL; } /* race: a */
int main(void) {
  int x = cilk_spawn asked();
  int y = cilk_spawn asked();
  setenv("CILKCHECK_TRIED", "1", 1); /* race: a */
  cilk_sync;
  return x != y;
}
