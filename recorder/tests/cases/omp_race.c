/* expect: race; levels: all; flags: -fopenmp; plain: no; a forgotten taskwait */
static int fib(int n) {
  int x, y;
  if (n < 2) return n;
#pragma omp task shared(x)
  x = fib(n - 1); /* race: a b */
  y = fib(n - 2);
  return x + y; /* race: a */
} /* race: b; the function gives up x while its task may write it */
int main(void) {
  int r;
#pragma omp parallel
#pragma omp single
  r = fib(3) * 0;
  return r;
}
