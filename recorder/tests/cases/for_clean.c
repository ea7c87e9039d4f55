/* expect: clean; rounds with locals whose addresses are taken, continue, nested loops, spawns, a sync of its own */
#include <cilk/cilk.h>
int a[100], b[10][10], c[100];
static void add(int *p) { *p += 1; }
int main(void) {
  cilk_for (int i = 0; i < 100; i += 2) {
    int own = i;
    if (i % 3 == 0)
      continue;
    add(&own);
    cilk_spawn add(&own);
    cilk_sync;
    a[i] = own;
  }
  cilk_for (int k = 99; k >= 0; --k)
    a[k]++;
  cilk_for (int i = 0; i < 10; ++i)
    cilk_for (int j = 0; j < 10; ++j)
      b[i][j] = i * j;
  cilk_for (int i = 0; i < 100; i++)
    cilk_spawn add(&c[i]);
  return a[4] + b[9][9] + c[99] - 89;
}
