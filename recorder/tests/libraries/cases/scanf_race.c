/* expect: race; sscanf writes its results, and reads its string */
#include <cilk/cilk.h>
#include <stdio.h>
static char text[] = "12 13";
static int a, b;
static void scan(void) { sscanf(text, "%d %d", &a, &b); } /* race: a */
int main(void) {
  cilk_spawn scan();
  int seen = b; /* race: a */
  text[4] = '3'; /* race: a */
  cilk_sync;
  return seen - 13 + a - 12;
}
