/* expect: refused; flags: -fopenmp; plain: no; says: taskgroup; a taskwait in a taskgroup waits for earlier tasks, too */
static int x, y;
int main(void) {
#pragma omp parallel
#pragma omp single
  {
#pragma omp task
    x = 1;
#pragma omp taskgroup
    {
#pragma omp task
      y = 1;
#pragma omp taskwait /* refused */
      x++;
    }
  }
  return x + y - 3;
}
