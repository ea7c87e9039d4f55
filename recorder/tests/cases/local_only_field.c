/* expect: clean; other fields of a local structure than those that the child touches */
#include <cilk/cilk.h>
struct walk { int depth; char mark; short step; };
static void deepen(struct walk *walk) { walk->depth++; walk->step = 3; }
int main(void) {
  struct walk here = {1, 2, 0};
  cilk_spawn deepen(&here);
  here.mark++;
  cilk_sync;
  return here.depth - 2;
}
