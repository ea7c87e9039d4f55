/* expect: refused; flags: -fopenmp; a taskwait does not wait for what its tasks left outstanding */
int x;
static void outer(void) {
#pragma omp task
  x = 1;
}
int main(void) {
#pragma omp parallel
#pragma omp single
  {
#pragma omp task
    outer();
#pragma omp taskwait
    x++;
  }
  return x - 2;
}
