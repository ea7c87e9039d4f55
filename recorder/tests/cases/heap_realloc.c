/* expect: race; realloc reads the block and ends its life */
#include <cilk/cilk.h>
#include <stdlib.h>
static void child(int *p) { p[3] = 1; } /* race: a */
int main(void) {
  int *p = calloc(10, 4);
  cilk_spawn child(p);  /* spawn: a */
  p = realloc(p, 4000); /* race: a */
  p[3] = 1;
  cilk_sync;
  free(p);
  return 0;
}
