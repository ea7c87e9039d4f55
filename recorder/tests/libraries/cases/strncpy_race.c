/* expect: race; strncpy fills what is left of its room */
#include <cilk/cilk.h>
#include <string.h>
static char to[16];
static void copy(void) { strncpy(to, "ab", 8); } /* race: a */
int main(void) {
  cilk_spawn copy();
  to[7] = 1; /* race: a */
  to[8] = 1;
  cilk_sync;
  return 0;
}
