/* expect: clean; flags: -fopenmp; atomic updates of numbers, floating, too */
static int n;
static double x;
int main(void) {
#pragma omp parallel num_threads(2)
  {
    int seen;
#pragma omp atomic
    n += 2;
#pragma omp atomic
    x += 0.5;
#pragma omp atomic read
    seen = n;
#pragma omp flush
    (void)seen;
  }
  return n != 4 || x != 1.0;
}
