/* expect: refused; flags: -fopenmp; plain: no; a variable of each thread */
int x;
#pragma omp threadprivate(x) /* refused */
int main(void) {
#pragma omp parallel
  x++;
  return 0;
}
