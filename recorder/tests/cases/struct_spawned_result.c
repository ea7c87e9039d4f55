/* expect: clean; structures as results of spawns, dropped and kept */
#include <cilk/cilk.h>
struct large { int at[20]; };
static struct large make(int i) { struct large made = {{i}}; return made; }
int main(void) {
  struct large kept[4];
  for (int i = 0; i < 4; i++) {
    cilk_spawn make(i);
    kept[i] = cilk_spawn make(i);
  }
  cilk_sync;
  return kept[1].at[0] - 1;
}
