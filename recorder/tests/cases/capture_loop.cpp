// expect: race; a lambda captures the loop's variable by reference, and the loop goes on
#include <cilk/cilk.h>
int got[4];
int main() {
  for (int i = 0; i < 3; i++)                    /* race: a */
    cilk_spawn [&] { got[i] = i; }(); /* race: a, spawn: a */
  cilk_sync;
  return got[2] - 2;
}
