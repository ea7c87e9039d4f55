/* expect: race; so is one that comes in registers */
#include <cilk/cilk.h>
struct two { long first, second; } both;
static struct two make(long i) { struct two made = {i, i}; return made; }
static void child(long i) { both = make(i); } /* race: a */
static long second(struct two *at) { return at->second; } /* race: a */
int main(void) {
  cilk_spawn child(1); /* spawn: a */
  long got = second(&both);
  cilk_sync;
  return got - 1;
}
