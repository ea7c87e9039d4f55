/* expect: race; levels: all; a structure that a call returns is the child's write: in registers, in memory, through a pointer */
#include <cilk/cilk.h>
struct small { int a, b; };
struct large { long numbers[6]; };
static struct small pair(int k) { return (struct small){k, k}; }
static struct large make(int k) { return (struct large){{k, k + 1}}; }
static struct large global;
int main(void) {
  struct small s = {0, 0};
  struct large l = make(1), *p = &global;
  s = cilk_spawn pair(1); /* race: a, spawn: a */
  int sum = s.b; /* race: a */
  cilk_sync;
  l = cilk_spawn make(2); /* race: b, spawn: b */
  l.numbers[5] = 1; /* race: b */
  cilk_sync;
  *p = cilk_spawn make(3); /* race: c, spawn: c */
  sum += (int)global.numbers[1]; /* race: c */
  cilk_sync;
  return sum - (1 + 4);
}
