/* expect: race; more arguments than registers, beside a large structure, and a local whose address is one of them */
#include <cilk/cilk.h>
struct large { long words[12]; } large;
long sum;
static void add(long a, long b, long c, long d, long e, long f, long g, struct large by_value, long *at, long h) {
  *at = a + b + c + d + e + f + g + by_value.words[3] + h; /* race: a */
  sum = *at;
}
int main(void) {
  long here = 0;
  for (int i = 0; i < 3; i++) {
    long *none = &sum; (void)none;
    cilk_spawn add(1, 2, 3, 4, 5, 6, 7, large, &here, 8); /* spawn: a */
    here = 1; /* race: a */
    cilk_sync;
  }
  return sum != 36;
}
