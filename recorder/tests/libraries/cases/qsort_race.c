/* expect: race; qsort moves all elements */
#include <cilk/cilk.h>
#include <stdlib.h>
static int a[50];
static int compare(const void *x, const void *y) { return *(const int *)x - *(const int *)y; }
static void sort(void) { qsort(a, 50, sizeof *a, compare); } /* race: a */
int main(void) {
  cilk_spawn sort();
  a[7] = 1; /* race: a */
  cilk_sync;
  return 0;
}
