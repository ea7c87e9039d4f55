/* expect: clean; flags: -fopenmp; untied, mergeable, priority, final, if, firstprivate, shared, private; regions with clauses */
#include <omp.h>
#include <stdio.h>
static int leaves(int n, int depth) {
  int left = 0, right = 0;
  if (n < 2) return 1;
#pragma omp task untied mergeable priority(2) shared(left) firstprivate(n) final(depth > 2)
  left = leaves(n - 1, depth + 1);
#pragma omp task shared(right) if (n > 4)
  {
    int own[4] = {n};
    right = leaves(own[0] - 2, depth + 1);
  }
#pragma omp taskwait
  return left + right;
}
int main(void) {
  int count = 0, before[2] = {0, 0}, k = 5;
#pragma omp parallel num_threads(2) firstprivate(k)
  {
    k++;
    before[omp_get_thread_num()] = k;
#pragma omp barrier
#pragma omp single nowait
    {
      for (int i = 0; i < 3; i++) {
#pragma omp task firstprivate(i) private(k) shared(count)
        {
          k = leaves(8 + i, 0);
#pragma omp atomic
          count += k;
        }
      }
#pragma omp taskyield
    }
  }
#pragma omp parallel if (count < 0)
#pragma omp master
  count += before[0] + before[1] - 12;
  printf("%d\n", count);
  return 0;
}
