/* expect: clean; arrays of variable length in children, one after another at one place */
#include <cilk/cilk.h>
static void set(int *at) { at[1] = 3; }
static int child(int n) { int v[n + 2]; set(v); return v[1]; }
int main(void) {
  for (int i = 0; i < 9; i++)
    cilk_spawn child(i * 7);
  child(3);
  cilk_sync;
  return 0;
}
