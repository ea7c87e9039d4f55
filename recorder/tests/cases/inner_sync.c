/* expect: race; a function's sync does not wait for its caller's children */
#include <cilk/cilk.h>
int x;
static void one(void) { x = 1; } /* race: a */
static void two(void) { x = 2; } /* race: a */
static void call(void) { cilk_spawn two(); cilk_sync; }
int main(void) {
  cilk_spawn one(); /* spawn: a */
  call();
  cilk_sync;
  return x - 2;
}
