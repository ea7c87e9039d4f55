// expect: race; levels: all; locals that only the children of one statement use are no temporaries
#include <cilk/cilk.h>
struct plain { int n; void put(int k) { n = k; } }; /* race: a a */
static void set(int &to, int k) { to = k; } /* race: b b c */
static void fill(plain *to, int k) { to[k % 1].n = k; } /* race: d d */
int main() {
  plain it;
  int x, y;
  plain many[2];
  for (int i = 0; i < 3; i++) cilk_spawn it.put(i); /* spawn: a */
  for (int i = 0; i < 3; i++) cilk_spawn set(x, i); /* spawn: b */
  for (int i = 0; i < 3; i++) cilk_spawn set(y = i, i); /* race: c, spawn: c */
  for (int i = 0; i < 3; i++) cilk_spawn fill(many, i); /* spawn: d */
  cilk_sync;
  return 0;
}
