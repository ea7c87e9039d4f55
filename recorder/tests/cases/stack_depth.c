/* expect: race; a local far down the stack, handed on through calls, raced for through other calls */
#include <cilk/cilk.h>
static void down(int depth, int *at) {
  int pad[20];
  pad[depth % 20] = depth;
  if (depth) down(depth - 1, at); else (*at)++; /* race: a a */
  pad[0]++;
}
static int caller(int depth) {
  int x = 0, sum = depth ? caller(depth - 1) : 0;
  cilk_spawn down(depth, &x); /* spawn: a */
  down(depth + 3, &x);
  cilk_sync;
  return x + sum;
}
int main(void) { return caller(4) - 10; }
