/* expect: race; callees of another name: in the assembler, in parentheses, of a pointer with the name of a function */
#include <cilk/cilk.h>
static int x, y, z;
static int labelled(int k) __asm__("another_name");
static int labelled(int k) { x = k; return k; } /* race: a */
static int plain(int k) { y = k; return k; } /* race: b */
static int third(int k) { z = k; return k; } /* race: c */
int main(void) {
  int (*const fixed)(int) = third, (*labelled_too)(int) = labelled;
  cilk_spawn labelled(plain(1)); /* spawn: a */
  y = 2;
  int seen = x; /* race: a */
  cilk_sync;
  cilk_spawn (plain)(labelled(1)); /* spawn: b */
  x = 2;
  seen += y; /* race: b */
  cilk_sync;
  cilk_spawn fixed(labelled_too(1)); /* spawn: c */
  x = 2;
  seen += z; /* race: c */
  cilk_sync;
  return seen - 3;
}
