/* expect: clean; levels: all; every kind of declarator, each variable read behind the sync */
#include <cilk/cilk.h>
struct pair { int a, b; };
typedef int (*function)(int);
static int cells[3] = {1, 2, 3};
static int twice(int n) { return 2 * n; }
static int (*row(int n))[3] { cells[1] = n; return &cells; }
static function pick(int n) { return n ? twice : 0; }
static struct pair make(int n) { return (struct pair){n, n + 1}; }
int main(void) {
  int n = 3;
  typeof(n) a = cilk_spawn twice(n);
  cilk_sync;
  __auto_type b = cilk_spawn twice(a);
  cilk_sync;
  int (*c)[3] = cilk_spawn row(n);
  cilk_sync;
  int (*d)(int) = cilk_spawn pick(n);
  cilk_sync;
  struct pair e = cilk_spawn make(n);
  cilk_sync;
  register int f = cilk_spawn twice(n);
  cilk_sync;
  _Alignas(16) double g = cilk_spawn twice(n);
  cilk_sync;
  int h = twice(1), i = cilk_spawn twice(h);
  h++;
  cilk_sync;
  __attribute__((unused)) function const j = cilk_spawn pick(1);
  cilk_sync;
  return a + b + (*c)[1] + d(1) + e.b + f + (int)g + h + i - (6 + 12 + 3 + 2 + 4 + 6 + 6 + 3 + 4);
}
