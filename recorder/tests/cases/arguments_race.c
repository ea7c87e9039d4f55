/* expect: race; what an argument points to is read by the child */
#include <cilk/cilk.h>
int to;
static void copy(int *from) { to = *from; } /* race: a */
int main(void) {
  int i = 0;
  cilk_spawn copy(&i); /* spawn: a */
  i++;                 /* race: a */
  cilk_sync;
  return to + i - 1;
}
