/* expect: race; flags: -fopenmp; plain: no; a function returns while a task uses its local */
static int out;
static void start(void) {
  int local = 1;
#pragma omp task shared(local) /* race: a; where gcc puts the function's end */
  out = ++local; /* race: a */
} /* race: a */
int main(void) {
#pragma omp parallel
#pragma omp single
  {
    start();
#pragma omp taskwait
  }
  return out - 2;
}
