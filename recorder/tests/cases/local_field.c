/* expect: race; levels: all; fields of a local structure that a child has the address of */
#include <cilk/cilk.h>
struct walk { int depth, step; };
static void deepen(struct walk *walk) { walk->depth++; } /* race: a */
int main(void) {
  struct walk here = {1, 2};
  cilk_spawn deepen(&here);  /* spawn: a */
  here.depth -= here.step;   /* race: a */
  cilk_sync;
  return here.depth;
}
