/* Counts bytes by their low six bits: a cilk_for over blocks, and a reducer for each bin.   histogram [BYTES] */
#include <cilk/cilk.h>
#include <cilk/reducer_opadd.h>
#include <stdio.h>
#include <stdlib.h>

#define BINS 64
#ifndef BLOCK
#define BLOCK 4096
#endif

#ifdef RACE
static long bins[BINS]; /* plain counters, which all rounds share */
#define ADD(bin, count) (bins[bin] += (count))
#define TOTAL(bin) bins[bin]
#else
static CILK_C_REDUCER_OPADD_TYPE(long) bins[BINS];
#define ADD(bin, count) (REDUCER_VIEW(bins[bin]) += (count))
#define TOTAL(bin) REDUCER_GET(bins[bin])
#endif

int main(int argc, char **argv) {
  int count = argc > 1 ? atoi(argv[1]) : 20000;
  long sum = 0;
  unsigned char *data = malloc(count);
  unsigned seed = 1;
  for (int i = 0; i < count; i++) {
    seed = seed * 1664525 + 1013904223;
    data[i] = seed >> 24;
  }
#ifndef RACE
  for (int bin = 0; bin < BINS; bin++)
    CILK_C_REGISTER_REDUCER(bins[bin]);
#endif
  cilk_for (int block = 0; block < (count + BLOCK - 1) / BLOCK; block++) { /* spawn: a */
    long own[BINS] = {0};
    int end = (block + 1) * BLOCK < count ? (block + 1) * BLOCK : count;
    for (int i = block * BLOCK; i < end; i++)
      own[data[i] % BINS]++;
    for (int bin = 0; bin < BINS; bin++)
      ADD(bin, own[bin]); /* race: a a */
  }
  for (int bin = 0; bin < BINS; bin++)
    sum = sum * 31 % 1000003 + TOTAL(bin);
  printf("histogram(%d) = %ld\n", count, sum);
  return 0;
}
