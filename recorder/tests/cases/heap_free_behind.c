/* expect: race; the spawner frees a block that its child still reads, and takes another of that size */
#include <cilk/cilk.h>
#include <stdlib.h>
static int child(int *p) { return p[3]; } /* race: a */
int main(void) {
  int *p = calloc(10, 4);
  cilk_spawn child(p); /* spawn: a */
  free(p);             /* race: a */
  int *q = malloc(40);
  q[3] = 1;
  cilk_sync;
  free(q);
  return 0;
}
