/* expect: clean; flags: -fopenmp; regions one after another and within another, orphaned tasks, barriers between */
#include <omp.h>
static int a[2][2], b[2], c;
static void orphaned(int *to) {
#pragma omp task
  *to = 1;
#pragma omp taskwait
  ++*to;
}
int main(void) {
  orphaned(&c);
  omp_set_num_threads(2);
  for (int round = 0; round < 3; round++) {
#pragma omp parallel
    {
      int own = omp_get_thread_num();
      b[own] = round;
#pragma omp barrier
      a[own][round & 1] = b[!own];
#pragma omp parallel
      {
#pragma omp single
        {
          orphaned(&a[own][0]);
          a[own][1] = omp_get_num_threads() * 0 + own;
        }
#pragma omp barrier
#pragma omp single
        a[own][0] += a[own][1];
      }
    }
  }
  return a[0][0] + a[1][0] + c - 2 - 3 - 2;
}
