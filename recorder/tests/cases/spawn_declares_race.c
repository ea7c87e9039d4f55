/* expect: race; levels: all; each variable is read beside the child that writes it */
#include <cilk/cilk.h>
struct pair { int a, b; };
typedef int (*function)(int);
static int cells[3] = {1, 2, 3};
static int twice(int n) { return 2 * n; }
static int (*row(void))[3] { return &cells; }
static function pick(int n) { return n ? twice : 0; }
static struct pair make(int n) { return (struct pair){n, n + 1}; }
int main(void) {
  int n = 3, sum = 0;
  typeof(n) a = cilk_spawn twice(n); /* race: a, spawn: a */
  sum += a; /* race: a */
  cilk_sync;
  int (*c)[3] = cilk_spawn row(); /* race: c, spawn: c */
  sum += (*c)[1]; /* race: c */
  cilk_sync;
  int (*d)(int) = cilk_spawn pick(n); /* race: d, spawn: d */
  sum += d(1); /* race: d */
  cilk_sync;
  struct pair e = cilk_spawn make(n); /* race: e, spawn: e */
  sum += e.b; /* race: e */
  cilk_sync;
  int h = twice(1), i = cilk_spawn twice(h); /* race: i, spawn: i */
  sum += h;
  sum += i; /* race: i */
  cilk_sync;
  return sum - (6 + 2 + 2 + 4 + 2 + 4);
}
