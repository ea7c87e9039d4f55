// expect: race; levels: all; a block's local ends while a child uses it
#include <cilk/cilk.h>
#include <memory>
int last;
struct Box { int x = 1; ~Box() { last = x; } }; /* race: a */
static void change(Box *box) { box->x = 2; } /* race: a */
int main() {
  { Box box; cilk_spawn change(&box); } /* spawn: a */
  cilk_sync;
  return last - 2;
}
