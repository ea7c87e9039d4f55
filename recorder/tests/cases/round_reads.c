/* expect: race; a round of a loop only reads what a child beside the loop writes */
#include <cilk/cilk.h>
int main(void) {
  int x = 0, a[3] = {0};
  cilk_spawn {
    x = 1; /* race: a */
  }
  cilk_for (int i = 0; i < 3; i++) {
    a[i] = x; /* race: a */
  }
  cilk_sync;
  return a[0] + a[1] + a[2] == 5;
}
