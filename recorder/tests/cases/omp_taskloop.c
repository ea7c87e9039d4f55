/* expect: race; levels: all; flags: -fopenmp; plain: no; rounds of a taskloop */
int a[40], n = 40, sum;
static void add(int k) { sum += k; } /* race: a a */
int main(void) {
#pragma omp parallel
#pragma omp master
  {
#pragma omp taskloop
    for (int i = 0; i < n; i++) {
      int k = i * 2;
      a[i] = k;
      add(k);
    }
#pragma omp taskloop
    for (int i = 1; i < n; i++)
      a[i] += 3;
  }
  return a[39] + sum - 1641;
}
