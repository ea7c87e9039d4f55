/* expect: race; flags: -fopenmp; plain: no; two tasks of one variable, in a taskgroup; behind it all is ordered */
static int x;
int main(void) {
#pragma omp parallel
#pragma omp single
  {
#pragma omp taskgroup
    {
      for (int i = 0; i < 2; i++) {
#pragma omp task
        x++; /* race: a a */
      }
    }
    x++;
  }
  return x - 3;
}
