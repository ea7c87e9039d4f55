// expect: refused; says: put their results into variables first; the name is an object's or that of the argument's function
#include <cilk/cilk.h>
namespace other { int function(int k) { return k; } }
int main() {
  auto function = [](int k) { return k; };
  int x = cilk_spawn function(other::function(1)); /* refused */
  cilk_sync;
  return x - 1;
}
