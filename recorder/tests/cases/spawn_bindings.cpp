// expect: clean; flags: -std=c++17; what is taken apart is read behind the sync
#include <cilk/cilk.h>
#include <tuple>
#include <utility>
struct triple { int a, b, c; };
static std::pair<int, long> two(int n) { return {n, n + 1}; }
static triple three(int n) { return {n, n, n}; }
static std::tuple<int, int> four(int n) { return {n, n}; }
static int cells[2] = {1, 2};
static int (&row())[2] { return cells; }
int main() {
  auto [p, q] = cilk_spawn two(3);
  cilk_sync;
  const auto &[a, b, c] = cilk_spawn three(p);
  cilk_sync;
  auto [x, y] = cilk_spawn four(a);
  cilk_sync;
  auto &[u, v] = cilk_spawn row();
  cilk_sync;
  u = 5;
  return p + q + b + c + x + y + u + v - (3 + 4 + 3 + 3 + 3 + 3 + 5 + 2);
}
