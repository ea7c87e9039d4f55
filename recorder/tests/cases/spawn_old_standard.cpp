// expect: race; flags: -std=c++11; without later standards' elision: a result goes through a move
#include <cilk/cilk.h>
struct counted {
  int value;
  explicit counted(int n) : value(n) {} /* race: a */
  counted(counted &&other) : value(other.value) { other.value = 0; } /* race: a */
  ~counted() {}
};
static counted make(int n) { return counted(n); }
int main() {
  counted x = cilk_spawn make(3); /* spawn: a */
  int seen = x.value; /* race: a */
  cilk_sync;
  for (int i = 0; i < 2; i++) cilk_spawn { seen += i * 0; cilk_sync; } /* race: b b */
  cilk_sync;
  return seen - 3;
}
