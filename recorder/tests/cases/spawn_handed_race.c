/* expect: race; levels: all; locals that only the children of one statement use are no temporaries, nor is a compound literal */
#include <cilk/cilk.h>
struct pair { int a, b; };
static void set(int *to, int k) { *to = k; } /* race: a a b b d */
static void put(struct pair *to, int k) { to->b += k; } /* race: c */
int main(void) {
  int x, many[4], y;
  for (int i = 0; i < 3; i++) cilk_spawn set(&x, i); /* spawn: a */
  for (int i = 0; i < 3; i++) cilk_spawn set(many + 2, i); /* spawn: b */
  for (int i = 0; i < 3; i++) cilk_spawn put(&(struct pair){i, i}, 1); /* race: c, spawn: c */
  for (int i = 0; i < 3; i++) cilk_spawn set((y = i, &y), i); /* race: d, spawn: d */
  cilk_sync;
  return 0;
}
