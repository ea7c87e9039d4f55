/* expect: clean; flags: -fopenmp; tasks, taskwait, taskgroup, single, if and final, firstprivate, atomic */
#include <stdio.h>
static int count;
static int fib(int n) {
  int x, y;
  if (n < 2) return n;
#pragma omp task shared(x) firstprivate(n) if (n > 3)
  x = fib(n - 1);
#pragma omp task shared(y) final(n < 4)
  y = fib(n - 2);
#pragma omp taskwait
  return x + y;
}
int main(void) {
  int r, done = 0;
#pragma omp parallel shared(done)
  {
#pragma omp single
    r = fib(8);
#pragma omp single
    {
#pragma omp taskgroup
      {
        for (int k = 0; k < 4; k++) {
#pragma omp task firstprivate(k) shared(done)
          {
#pragma omp atomic
            done += k;
          }
        }
      }
      done *= 2;
    }
#pragma omp atomic
    count++;
  }
  printf("%d %d\n", r, done);
  return r + done - 33;
}
