/* Factors a matrix in place into L and U by quarters, without pivots.   lu [N, a power of 2] */
#include <cilk/cilk.h>
#include <stdio.h>
#include <stdlib.h>

#ifndef LEAF
#define LEAF 16
#endif

static int width;
#define AT(m, i, j) (m)[(i) * width + (j)]

static void factor_leaf(double *a, int n) {
  for (int k = 0; k < n; k++)
    for (int i = k + 1; i < n; i++) {
      AT(a, i, k) /= AT(a, k, k);
      for (int j = k + 1; j < n; j++)
        AT(a, i, j) -= AT(a, i, k) * AT(a, k, j);
    }
}

/* c -= a b */
static void subtract_product(double *c, const double *a, const double *b, int n) {
  if (n <= LEAF) {
    for (int i = 0; i < n; i++)
      for (int k = 0; k < n; k++)
        for (int j = 0; j < n; j++)
          AT(c, i, j) -= AT(a, i, k) * AT(b, k, j); /* race: a a */
    return;
  }
  int h = n / 2;
  for (int k = 0; k < 2; k++) {
    const double *left = a + k * h, *top = b + k * h * width;
    cilk_spawn subtract_product(c, left, top, h);
    cilk_spawn subtract_product(c + h, left, top + h, h);
    cilk_spawn subtract_product(c + h * width, left + h * width, top, h);
    subtract_product(c + h * width + h, left + h * width, top + h, h);
    cilk_sync;
  }
}

/* x = L^-1 x, where L has ones on its diagonal */
static void solve_lower(double *x, const double *l, int n) {
  if (n <= LEAF) {
    for (int k = 0; k < n; k++)
      for (int i = k + 1; i < n; i++)
        for (int j = 0; j < n; j++)
          AT(x, i, j) -= AT(l, i, k) * AT(x, k, j); /* race: a */
    return;
  }
  int h = n / 2;
  for (int side = 0; side < 2; side++) {
    double *top = x + side * h, *bottom = top + h * width;
    solve_lower(top, l, h);
    subtract_product(bottom, l + h * width, top, h);
    solve_lower(bottom, l + h * width + h, h);
  }
}

/* x = x U^-1 */
static void solve_upper(double *x, const double *u, int n) {
  if (n <= LEAF) {
    for (int i = 0; i < n; i++)
      for (int k = 0; k < n; k++) {
        AT(x, i, k) /= AT(u, k, k);
        for (int j = k + 1; j < n; j++)
          AT(x, i, j) -= AT(x, i, k) * AT(u, k, j);
      }
    return;
  }
  int h = n / 2;
  for (int side = 0; side < 2; side++) {
    double *left = x + side * h * width, *right = left + h;
    solve_upper(left, u, h);
    subtract_product(right, left, u + h, h);
    solve_upper(right, u + h * width + h, h);
  }
}

static void factor(double *a, int n) {
  if (n <= LEAF) {
    factor_leaf(a, n);
    return;
  }
  int h = n / 2;
  double *right = a + h, *below = a + h * width, *rest = below + h;
  factor(a, h);
  cilk_spawn solve_lower(right, a, h); /* spawn: a */
  solve_upper(below, a, h);
#ifndef RACE /* else: a forgotten sync, and the product may take a right that is not solved */
  cilk_sync;
#endif
  subtract_product(rest, below, right, h);
  cilk_sync;
  factor(rest, h);
}

int main(int argc, char **argv) {
  int n = argc > 1 ? atoi(argv[1]) : 64;
  double *a = malloc(n * n * sizeof *a), sum = 0;
  width = n;
  for (int i = 0; i < n; i++)
    for (int j = 0; j < n; j++)
      a[i * n + j] = (i * 37 + j * 17) % 11 + (i == j) * 40 * n;
  factor(a, n);
  for (int i = 0; i < n * n; i++)
    sum += a[i] * (i % 5 + 1);
  printf("lu(%d) = %.6f\n", n, sum);
  return 0;
}
