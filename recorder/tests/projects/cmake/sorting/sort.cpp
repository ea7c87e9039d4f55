#include "sorting/sort.hpp"
#include <algorithm>
#include <cilk/cilk.h>

void sort(Numbers::iterator first, Numbers::iterator last) {
#ifdef RACE
  static int scratch; /* one for all strands */
#else
  int scratch;
#endif
  if (last - first < 64) {
    std::sort(first, last);
    return;
  }
  auto middle = first + (last - first) / 2;
  std::nth_element(first, middle, last);
  scratch = *middle; /* race: a a b */
  cilk_spawn sort(first, middle); /* spawn: a b */
  sort(middle + 1, last);
  cilk_sync;
  *middle = scratch; /* race: b */
}
