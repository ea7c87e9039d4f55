/* C += A B by quarters: four products in parallel, and then four more into the same quarters.   matmul [N, a power of 2] */
#include <cilk/cilk.h>
#include <stdio.h>
#include <stdlib.h>

#ifndef LEAF
#define LEAF 16
#endif

static void multiply_leaf(double *c, const double *a, const double *b, int n, int width) {
  for (int i = 0; i < n; i++)
    for (int k = 0; k < n; k++)
      for (int j = 0; j < n; j++)
        c[i * width + j] += a[i * width + k] * b[k * width + j]; /* race: a a */
}

static void multiply(double *c, const double *a, const double *b, int n, int width) {
  if (n <= LEAF) {
    multiply_leaf(c, a, b, n, width);
    return;
  }
  int h = n / 2, down = h * width;
  cilk_spawn multiply(c, a, b, h, width);               /* spawn: a */
  cilk_spawn multiply(c + h, a, b + h, h, width);       /* spawn: a */
  cilk_spawn multiply(c + down, a + down, b, h, width); /* spawn: a */
  multiply(c + down + h, a + down, b + h, h, width);
#ifndef RACE /* else: a forgotten sync */
  cilk_sync;
#endif
  cilk_spawn multiply(c, a + h, b + down, h, width);
  cilk_spawn multiply(c + h, a + h, b + down + h, h, width);
  cilk_spawn multiply(c + down, a + down + h, b + down, h, width);
  multiply(c + down + h, a + down + h, b + down + h, h, width);
  cilk_sync;
}

int main(int argc, char **argv) {
  int n = argc > 1 ? atoi(argv[1]) : 64;
  double *a = malloc(n * n * sizeof *a), *b = malloc(n * n * sizeof *b), *c = calloc(n * n, sizeof *c), sum = 0;
  for (int i = 0; i < n * n; i++) {
    a[i] = i % 7;
    b[i] = i % 5;
  }
  multiply(c, a, b, n, n);
  for (int i = 0; i < n * n; i++)
    sum += c[i] * (i % 3 + 1);
  printf("matmul(%d) = %.0f\n", n, sum);
  return 0;
}
