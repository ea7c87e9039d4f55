// expect: refused; flags: -std=c++17; says: a get whose result is taken apart; get<0> is called behind it
#include <cilk/cilk.h>
#include <tuple>
struct source { std::tuple<int, int> get() { return {1, 2}; } };
int main() {
  source it;
  auto [a, b] = cilk_spawn it.get(); /* refused */
  cilk_sync;
  return a + b - 3;
}
