/* expect: race; qsort writes its array and calls back; children sort arrays of their own meanwhile */
#include <cilk/cilk.h>
#include <stdlib.h>
int all[50], parts[500];
static int compare(const void *a, const void *b) { return *(const int *)a - *(const int *)b; }
static void sort_all(void) { qsort(all, 50, 4, compare); } /* race: a */
static void sort(int *part) { qsort(part, 50, 4, compare); }
int main(void) {
  cilk_spawn sort_all(); /* spawn: a */
  all[7] = 1;            /* race: a */
  for (int i = 0; i < 10; i++)
    cilk_spawn sort(parts + 50 * i);
  cilk_sync;
  return 0;
}
