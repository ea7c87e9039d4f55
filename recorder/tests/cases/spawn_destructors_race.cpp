// expect: race; levels: all; the temporaries of a spawn are destroyed by the child, and made by the spawner
#include <cilk/cilk.h>
static int made, gone;
struct value {
  int n;
  explicit value(int k) : n(k) { made++; } /* race: c c */
  ~value() { gone++; } /* race: a b */
  operator int() const { return n; }
};
static int look(const value &it) { return it.n; }
static value make(int k) { return value(k); }
int main() {
  int x = cilk_spawn look(value(3)); /* spawn: a */
  made = 5;
  gone = 0; /* race: a */
  cilk_sync;
  x += cilk_spawn make(2); /* spawn: b c */
  gone = 0; /* race: b */
  cilk_spawn look(value(1)); /* spawn: c */
  cilk_sync;
  return x - 5;
}
