/* expect: refused; flags: -fopenmp; plain: no; says: outstanding; a taskwait does not wait for tasks of its tasks */
static int x;
static void start(void) {
#pragma omp task
  x = 1;
}
int main(void) {
#pragma omp parallel
#pragma omp single
  {
#pragma omp task
    start();
#pragma omp taskwait /* refused */
    x++;
  }
  return x - 2;
}
