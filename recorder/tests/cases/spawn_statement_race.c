/* expect: race; a spawn of an assignment: the child evaluates its arguments, too */
#include <cilk/cilk.h>
static int a[2];
static int twice(int k) { return 2 * k; }
int main(void) {
  int n = 3, m = 4;
  cilk_spawn a[0] = twice(n); /* race: a b, spawn: a b */
  n = 5; /* race: a */
  int seen = a[0]; /* race: b */
  cilk_spawn while (m) m--; /* race: c, spawn: c */
  seen += m; /* race: c */
  cilk_sync;
  return seen + a[0] - (6 + 6);
}
