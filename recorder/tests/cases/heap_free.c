/* expect: race; plain: no; a block is freed while it is read; in the serial run it is read after that */
#include <cilk/cilk.h>
#include <stdlib.h>
static void child(int *p) { free(p); } /* race: a */
int main(void) {
  int *p = malloc(40);
  p[3] = 1;
  cilk_spawn child(p); /* spawn: a */
  int got = p[3];      /* race: a */
  cilk_sync;
  return got == 12345;
}
