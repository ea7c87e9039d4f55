/* expect: race; flags: -fopenmp; plain: no; a task only reads what its spawner writes */
int main(void) {
  int x = 0, y = 0;
#pragma omp parallel
#pragma omp single
  {
#pragma omp task
    y = x; /* race: a */
    x = 1; /* race: a */
#pragma omp taskwait
  }
  return x + y == 0;
}
