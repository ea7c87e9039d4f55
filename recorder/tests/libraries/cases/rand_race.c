/* expect: race; rand has one state for all, and rand_r the caller's */
#include <cilk/cilk.h>
#include <stdlib.h>
static int draw(unsigned *seed) { return rand_r(seed) + rand(); } /* race: a a */
int main(void) {
  unsigned seeds[2] = {1, 2};
  int x = cilk_spawn draw(&seeds[0]);
  int y = draw(&seeds[1]);
  cilk_sync;
  return x == y;
}
