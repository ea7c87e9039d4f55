// expect: race; a function that always throws
#include <cilk/cilk.h>
int x;
static void fail() {
  x = 1; /* race: a */
  throw 1;
}
static void set() { x = 2; } /* race: a */
int main() {
  cilk_spawn set(); /* spawn: a */
  try { fail(); } catch (int) { }
  cilk_sync;
  return x - 1;
}
