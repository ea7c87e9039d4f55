/* expect: clean; structures as arguments of a spawn are read by the spawner */
#include <cilk/cilk.h>
struct large { int at[20]; };
static void add(struct large *large) { large->at[3]++; large->at[7] = large->at[3]; }
static void child(struct large by_value, int i) { by_value.at[0] = i; add(&by_value); }
int main(void) {
  struct large large = {{1}};
  for (int i = 0; i < 5; i++) {
    cilk_spawn child(large, i);
    large.at[3] = i;
  }
  child(large, 9);
  cilk_sync;
  return 0;
}
