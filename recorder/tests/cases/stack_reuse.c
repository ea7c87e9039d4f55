/* expect: clean; levels: all; locals of children and of calls that have the same addresses one after another */
#include <cilk/cilk.h>
#include <string.h>
static void use(int *p, char *c) { p[0]++; c[3] = 1; memset(c, 0, 7); }
static int child(int i) { int a[9]; char b[9]; a[0] = i; use(a, b); return a[0]; }
int main(void) {
  int sum = 0;
  for (int i = 0; i < 9; i++) {
    cilk_spawn child(i);
    sum += child(i);
  }
  cilk_sync;
  return sum - 45;
}
