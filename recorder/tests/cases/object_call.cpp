// expect: race; an object bears the name of a function that an argument calls; a pointer's function has another name
#include <cilk/cilk.h>
static int x, y;
static void set(int k) { x = k; } /* race: b */
namespace other { int function(int k) { y = k; return k; } }
int main() {
  auto function = [](int k) { x = k; }; /* race: a */
  cilk_spawn function(other::function(1)); /* spawn: a */
  y = 0;
  x = 2; /* race: a */
  cilk_sync;
  void (*pointer)(int) = set;
  cilk_spawn pointer(other::function(3)); /* spawn: b */
  y = 0;
  x = 4; /* race: b */
  cilk_sync;
  return x - 4;
}
