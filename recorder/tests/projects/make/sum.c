#include "total.h"
long calls;
double sum(const double *at, int count) {
#ifdef RACE
  calls++; /* race: a a */
#endif
  if (count < 50) {
    double total = 0;
    for (int i = 0; i < count; i++)
      total += at[i];
    return total;
  }
  int first = part(count);
  double left = cilk_spawn sum(at, first); /* spawn: a */
  double right = sum(at + first, count - first);
  cilk_sync;
  return left + right;
}
