/* expect: refused; flags: -fopenmp; plain: no; task depend(out: x) is not spawn-sync */
int x;
int main(void) {
#pragma omp parallel
  {
#pragma omp task depend(out: x) /* refused */
    { x++; }
  }
  return 0;
}
