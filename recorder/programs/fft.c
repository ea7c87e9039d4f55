/* The discrete Fourier transform by even and odd places.   fft [N, a power of 2] */
#include <cilk/cilk.h>
#include <math.h>
#include <stdio.h>
#include <stdlib.h>

#ifndef LEAF
#define LEAF 16
#endif

struct number {
  double re, im;
};

static struct number *roots;
static int whole;

static void combine(struct number *x, const struct number *halves, int from, int to, int n) {
  if (to - from > 4 * LEAF) {
    int middle = (from + to) / 2;
    cilk_spawn combine(x, halves, from, middle, n);
    combine(x, halves, middle, to, n);
    cilk_sync;
    return;
  }
  for (int k = from; k < to; k++) {
    const struct number *root = &roots[k * (whole / n)], *even = &halves[k], *odd = &halves[n / 2 + k];
    double re = root->re * odd->re - root->im * odd->im; /* race: a */
    double im = root->re * odd->im + root->im * odd->re; /* race: a */
    x[k].re = even->re + re;                             /* race: a a */
    x[k].im = even->im + im;                             /* race: a a */
    x[n / 2 + k].re = even->re - re;                     /* race: a a */
    x[n / 2 + k].im = even->im - im;                     /* race: a a */
  }
}

/* Transforms x; scratch is as long. */
static void transform(struct number *x, struct number *scratch, int n) {
  if (n == 1)
    return;
  int half = n / 2;
  for (int k = 0; k < half; k++) {
    scratch[k].re = x[2 * k].re;            /* race: a a */
    scratch[k].im = x[2 * k].im;            /* race: a a */
    scratch[half + k].re = x[2 * k + 1].re; /* race: a a */
    scratch[half + k].im = x[2 * k + 1].im; /* race: a a */
  }
  if (n <= LEAF) {
    transform(scratch, x, half);
    transform(scratch + half, x + half, half);
  } else {
    cilk_spawn transform(scratch, x, half); /* spawn: a */
#ifdef RACE
    transform(scratch + half, x, half); /* both halves take the same scratch */
#else
    transform(scratch + half, x + half, half);
#endif
    cilk_sync;
  }
  combine(x, scratch, 0, half, n);
}

int main(int argc, char **argv) {
  int n = argc > 1 ? atoi(argv[1]) : 128;
  double sum = 0;
  whole = n;
  struct number *x = malloc(n * sizeof *x), *scratch = malloc(n * sizeof *scratch);
  roots = malloc(n * sizeof *roots);
  for (int k = 0; k < n; k++) {
    roots[k].re = cos(2 * M_PI * k / n);
    roots[k].im = -sin(2 * M_PI * k / n);
    x[k].re = k % 9;
    x[k].im = k % 4;
  }
  transform(x, scratch, n);
  for (int k = 0; k < n; k++)
    sum += fabs(x[k].re) + 3 * fabs(x[k].im);
  printf("fft(%d) = %.3f\n", n, sum);
  return 0;
}
