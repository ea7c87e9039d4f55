/* expect: race; levels: all; flags: -fopenmp; plain: no; rounds of a taskloop run in parallel, and come before what follows it */
static int sum, a[20], seen;
static void add(int i) { sum += i; } /* race: a a */
int main(void) {
#pragma omp parallel
#pragma omp single
  {
#pragma omp taskloop
    for (int i = 0; i < 20; i++) add(i);
#pragma omp taskloop
    for (int i = 0; i < 20; i++) a[i] = i;
    seen = a[19];
  }
  return sum + seen - 209;
}
