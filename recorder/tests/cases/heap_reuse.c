/* expect: clean; blocks of children that have the same address one after another */
#include <cilk/cilk.h>
#include <stdlib.h>
static void child(int i) {
  int *p = malloc(40);
  p[0] = p[9] = i;
  free(p);
  p = realloc(malloc(8), 4000);
  p[1] = 1;
  free(p);
  p = calloc(10, 4);
  p[2]++;
  free(p);
}
int main(void) {
  for (int i = 0; i < 50; i++)
    cilk_spawn child(i);
  cilk_sync;
  return 0;
}
