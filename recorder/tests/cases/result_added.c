/* expect: race; results that are added to one place by children */
#include <cilk/cilk.h>
static int one(int i) { return i; }
int main(void) {
  int sum = 0;
  for (int i = 0; i < 4; i++)
    sum += cilk_spawn one(i); /* race: a a, spawn: a */
  cilk_sync;
  return sum - 6;
}
