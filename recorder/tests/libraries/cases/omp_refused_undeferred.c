/* expect: refused; flags: -fopenmp; plain: no; says: undeferred; an undeferred task ends with a task outstanding */
static int x;
static void start(void) {
#pragma omp task
  x = 1;
}
int main(int count, char **words) {
  (void)words;
#pragma omp parallel
#pragma omp single
  {
#pragma omp task if (count > 7) /* refused */
    start();
  }
  return x - 1;
}
