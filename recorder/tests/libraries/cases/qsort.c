/* expect: clean; qsort and bsearch on parts of one array */
#include <cilk/cilk.h>
#include <stdlib.h>
static int a[600];
static int compare(const void *x, const void *y) { return *(const int *)x - *(const int *)y; }
static void sort(int *at, int n) { qsort(at, n, sizeof *at, compare); }
static int found(int n) { return bsearch(&n, a, 600, sizeof *a, compare) != NULL; }
int main(void) {
  for (int i = 0; i < 600; i++) a[i] = (i * 7919) % 300 + i / 300 * 300;
  cilk_spawn sort(a, 300);
  sort(a + 300, 300);
  cilk_sync;
  int x = cilk_spawn found(5);
  int y = cilk_spawn found(700);
  cilk_sync;
  return !x || y;
}
