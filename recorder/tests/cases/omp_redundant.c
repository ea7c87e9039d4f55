/* expect: race; flags: -fopenmp; plain: no; what all threads of a region run races with itself */
int x, y;
int main(void) {
#pragma omp parallel num_threads(2)
  {
    x++; /* race: a a */
#pragma omp barrier
#pragma omp master
    y = x;
  }
  return 0;
}
