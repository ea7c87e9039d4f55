/* expect: race; a local that is static */
#include <cilk/cilk.h>
static int next(void) {
  static int last;
  return ++last; /* race: a a */
}
int main(void) {
  cilk_spawn next(); /* spawn: a */
  int got = next();
  cilk_sync;
  return got - 2;
}
