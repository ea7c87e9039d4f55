#include "bins.h"
#include <cilk/cilk.h>
#include <vector>

static void each(long *bins, const unsigned char *bytes, long from, long to) {
  for (long i = from; i < to; i++)
    bins[bytes[i] % 8]++; /* race: a a */
}

void count_into(long *bins, const unsigned char *bytes, long n) {
#ifdef RACE
  cilk_spawn each(bins, bytes, 0, n / 2);
  each(bins, bytes, n / 2, n);
  cilk_sync;
#else
  std::vector<long> half(8);
  cilk_spawn each(bins, bytes, 0, n / 2);
  each(half.data(), bytes, n / 2, n);
  cilk_sync;
  cilk_for (int i = 0; i < 8; i++)
    bins[i] += half[i];
#endif
}
