/* expect: race; arguments with ?:, && and statements: the spawner's, the call is the child's */
#include <cilk/cilk.h>
static int x, y, z;
static int one(int k) { x++; return k; }
static int two(int k) { y++; return k; }
static void take(int a, int b) { z = a + b; } /* race: a */
int main(void) {
  int n = 2;
  cilk_spawn take(n > 1 ? one(1) : two(2), n && two(3)); /* spawn: a */
  x = 4, y = 5;
  cilk_spawn take(({ int t = one(1); if (t) t += two(2); t; }), ({ int u = cilk_spawn two(3); cilk_sync; u; })); /* spawn: a */
  x++, y++;
  int seen = z; /* race: a */
  cilk_sync;
  return seen + z + x + y - (6 + 6 + 6 + 8);
}
