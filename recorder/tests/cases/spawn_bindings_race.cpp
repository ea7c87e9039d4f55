// expect: race; flags: -std=c++17; levels: all; what is taken apart is read beside the child (clang says the first line of a pair's p, a reference)
#include <cilk/cilk.h>
#include <utility>
struct triple { int a, b, c; };
static std::pair<int, long> two(int n) { return {n, n + 1}; }
static triple three(int n) { return {n, n, n}; }
int main() {
  auto [p, q] = cilk_spawn two(3); /* race: a r r, spawn: a r */
  int sum = p; /* race: a */
  cilk_sync;
  const auto [a, b, c] = cilk_spawn three(sum); /* race: b, spawn: b */
  sum += c; /* race: b */
  cilk_sync;
  return sum + static_cast<int>(q) + a + b - (6 + 4 + 3 + 3);
}
