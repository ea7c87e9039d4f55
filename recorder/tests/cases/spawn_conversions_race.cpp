// expect: race; levels: all; the conversion of a result is the child's, that of an argument the spawner's
#include <cilk/cilk.h>
static int read_, x;
struct from { int n; operator int() const { read_++; return n; } }; /* race: a */
struct into { int n; into(const from &it) : n(it.n) {} }; /* race: b */
static from make(int n) { return {n}; }
static int same(int n) { return n; }
int main() {
  from argument = {1};
  x = cilk_spawn same(argument);
  read_ = 5;
  argument.n = 2;
  cilk_sync;
  int y = cilk_spawn make(3); /* spawn: a */
  read_ = 6; /* race: a */
  cilk_sync;
  into z = cilk_spawn make(4); /* spawn: b */
  int seen = z.n; /* race: b */
  cilk_sync;
  return x + y + seen - (1 + 3 + 4);
}
