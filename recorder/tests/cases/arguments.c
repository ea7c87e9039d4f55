/* expect: clean; arguments are evaluated before the spawn */
#include <cilk/cilk.h>
int from[9], to[9];
static void copy(int value, int *at) { *at = value; }
int main(void) {
  int i = 0;
  while (i < 8) {
    cilk_spawn copy(from[i], &to[i]);
    from[i] = 1;
    i++;
  }
  cilk_sync;
  return to[7];
}
