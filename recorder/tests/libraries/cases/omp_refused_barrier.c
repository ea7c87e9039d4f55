/* expect: refused; flags: -fopenmp; plain: no; says: barrier; a barrier that one thread alone reaches */
static int x;
static void wait_here(void) {
#pragma omp barrier /* refused */
  x++;
}
int main(void) {
#pragma omp parallel num_threads(2)
  {
#pragma omp master
    wait_here();
  }
  return 0;
}
