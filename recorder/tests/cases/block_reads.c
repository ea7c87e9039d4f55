/* expect: race; a spawned block only reads what the spawner writes */
#include <cilk/cilk.h>
int main(void) {
  int x = 0, y = 0;
  cilk_spawn {
    y += x; /* race: a */
  }
  x = 1; /* race: a */
  cilk_sync;
  return x + y == 0;
}
