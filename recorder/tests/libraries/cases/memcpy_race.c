/* expect: race; memcpy reads the last byte that it copies */
#include <cilk/cilk.h>
#include <string.h>
static char from[16], to[16];
static void copy(void) { memcpy(to, from, 16); } /* race: a */
int main(void) {
  cilk_spawn copy();
  from[15] = 1; /* race: a */
  cilk_sync;
  return 0;
}
