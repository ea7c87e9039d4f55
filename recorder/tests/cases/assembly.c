/* expect: clean; unseen: inline assembly; inline assembly that touches memory by a register */
#include <cilk/cilk.h>
int x;
static void child(void) { __asm__ volatile("incl (%0)" : : "r"(&x) : "memory"); }
int main(void) {
  cilk_spawn child();
  x = 2;
  cilk_sync;
  return x - 2;
}
