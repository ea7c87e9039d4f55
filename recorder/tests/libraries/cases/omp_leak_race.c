/* expect: race; flags: -fopenmp; plain: no; what a task left outstanding runs beside its parent's next statement */
static int x;
static void start(void) {
#pragma omp task
  x = 1; /* race: a */
}
int main(void) {
  int seen = 0;
#pragma omp parallel
#pragma omp single
  {
#pragma omp task
    start();
    seen = x; /* race: a */
  }
  return seen - 1;
}
