/* expect: refused; flags: -fopenmp; plain: no; for is not spawn-sync */
int x;
int main(void) {
#pragma omp parallel
  {
#pragma omp for /* refused */
    for (int i = 0; i < 4; i++)
    { x++; }
  }
  return 0;
}
