/* expect: race; strdup reads its string; its copy is a block of its own */
#include <cilk/cilk.h>
#include <stdlib.h>
#include <string.h>
static char text[] = "text";
static char *copies[2];
static void copy(int i) {
  copies[i] = strdup(text); /* race: a */
  copies[i][0] = 'T';
}
int main(void) {
  cilk_spawn copy(0);
  cilk_spawn copy(1);
  text[4] = 0; /* race: a */
  cilk_sync;
  int r = copies[0][0] + copies[1][3] - 'T' - 't';
  free(copies[0]);
  free(copies[1]);
  return r;
}
