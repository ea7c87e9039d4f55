/* Heat that spreads on a square grid, step by step from one grid into another, by halves of the rows.   heat [N [STEPS]] */
#include <cilk/cilk.h>
#include <stdio.h>
#include <stdlib.h>

#ifndef LEAF
#define LEAF 8
#endif

static int width;
static double *now, *next;

static void spread_rows(int from, int to) {
  for (int row = from; row < to; row++)
    for (int column = 1; column < width - 1; column++) {
      const double *at = now + row * width + column;
      double around = at[-1] + at[1] + at[-width] + at[width];
      next[row * width + column] = at[0] + 0.1 * (around - 4 * at[0]); /* race: a a */
    }
}

static void spread(int from, int to) {
  if (to - from <= LEAF) {
    spread_rows(from, to);
    return;
  }
  int middle = (from + to) / 2;
#ifdef RACE
  cilk_spawn spread(from, middle + 1); /* spawn: a; the halves overlap by a row */
#else
  cilk_spawn spread(from, middle);
#endif
  spread(middle, to);
  cilk_sync;
}

int main(int argc, char **argv) {
  int n = argc > 1 ? atoi(argv[1]) : 48, steps = argc > 2 ? atoi(argv[2]) : 4;
  width = n;
  now = calloc(n * n, sizeof *now);
  next = calloc(n * n, sizeof *next);
  now[n / 2 * n + n / 2] = 1000;
  for (int step = 0; step < steps; step++) {
    spread(1, n - 1);
    double *swapped = now;
    now = next;
    next = swapped;
  }
  double sum = 0;
  for (int i = 0; i < n * n; i++)
    sum += now[i] * (i % 7 + 1);
  printf("heat(%d, %d) = %.6f\n", n, steps, sum);
  return 0;
}
