/* expect: race; a structure that a spawned call returns is written by the child */
#include <cilk/cilk.h>
struct large { int at[20]; };
static struct large make(int i) { struct large made = {{i}}; return made; }
int main(void) {
  struct large kept;
  kept = cilk_spawn make(1); /* race: a, spawn: a */
  int got = kept.at[5];      /* race: a */
  cilk_sync;
  return got;
}
