/* expect: race; spawns that macros make, at the line where the macro is used */
#include <cilk/cilk.h>
#define SPAWN cilk_spawn
#define RUN(to, call) to = SPAWN call
#define BOTH(one, other) \
  do { \
    cilk_spawn one; \
    other; \
    cilk_sync; \
  } while (0)
static int x, y;
static void set(int *to, int k) { *to = k; } /* race: c */
static int get(int k) { return k; }
int main(void) {
  BOTH(set(&x, 1), set(&y, 2));
  RUN(x, get(3)); /* race: a, spawn: a */
  y = x; /* race: a */
  cilk_sync;
  BOTH(set(&x, 4), x = 5); /* race: c, spawn: c */
  return x - 5;
}
