/* expect: race; levels: all; an element of a local array that a child has the address of */
#include <cilk/cilk.h>
static void set(int *all) { all[7] = 1; } /* race: a */
int main(void) {
  int all[9] = {0};
  cilk_spawn set(all); /* spawn: a */
  all[7] = 2;          /* race: a */
  all[6] = 3;
  cilk_sync;
  return all[7] - 2;
}
