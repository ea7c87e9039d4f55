/* expect: refused; flags: -fopenmp; plain: no; sections is not spawn-sync */
int x;
int main(void) {
#pragma omp parallel
  {
#pragma omp sections /* refused */
    { x++; }
  }
  return 0;
}
