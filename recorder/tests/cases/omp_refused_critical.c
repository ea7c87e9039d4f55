/* expect: refused; flags: -fopenmp; plain: no; critical is not spawn-sync */
int x;
int main(void) {
#pragma omp parallel
  {
#pragma omp critical /* refused */
    { x++; }
  }
  return 0;
}
