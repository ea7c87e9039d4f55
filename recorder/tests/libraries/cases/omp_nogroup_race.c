/* expect: race; levels: all; flags: -fopenmp; plain: no; nogroup does not wait for the rounds of a taskloop */
static int a[20], seen;
int main(void) {
  int only_read = 0;
#pragma omp parallel
#pragma omp single
  {
#pragma omp taskloop nogroup
    for (int i = 0; i < 20; i++) a[i] = i; /* race: a */
    seen = a[19]; /* race: a */
#pragma omp taskwait
#pragma omp taskloop shared(only_read) nogroup
    for (int i = 0; i < 20; i++) a[i] = only_read; /* race: b */
    only_read = 1; /* race: b */
#pragma omp taskwait
    seen = a[18] + only_read;
  }
  return seen - 1;
}
