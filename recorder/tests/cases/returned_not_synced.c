/* expect: race; a child that has returned, and is not synced with, is parallel to what follows; a call, a scope and a cilk_for lie between */
#include <cilk/cilk.h>
int x, y[4];
static void set(void) { x = 1; } /* race: a */
static void call(int i) { y[i] = i; }
int main(void) {
  cilk_spawn set(); /* spawn: a */
  call(0);
  cilk_scope { cilk_spawn call(1); }
  cilk_for (int i = 2; i < 4; i++)
    call(i);
  x = 2; /* race: a */
  cilk_sync;
  return x + y[3] - 5;
}
