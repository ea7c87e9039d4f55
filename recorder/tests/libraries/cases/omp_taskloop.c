/* expect: clean; flags: -fopenmp; rounds of taskloops; with a grain size or a number of tasks, rounds of one task are in order */
static int a[100], sums[10], n = 100;
static long total;
int main(void) {
#pragma omp parallel
#pragma omp single
  {
#pragma omp taskloop
    for (int i = n - 1; i >= 0; i -= 3) a[i] = i;
#pragma omp taskloop num_tasks(1)
    for (int i = 0; i < 100; i++) total += a[i];
#pragma omp taskloop grainsize(10)
    for (unsigned long i = 0; i < 100; i++) sums[i / 10] += a[i];
#pragma omp taskloop if (n < 7) collapse(2)
    for (int i = 0; i < 10; i++)
      for (int k = 0; k < 10; k++) a[i * 10 + k]++;
#pragma omp taskloop final(n > 7)
    for (int i = 1; i < n; i++) a[i]++;
  }
  for (int i = 0; i < 10; i++) total -= sums[i];
  for (int i = 0; i < n; i++) total += a[i];
  return total != 1683 + 100 + 99;
}
