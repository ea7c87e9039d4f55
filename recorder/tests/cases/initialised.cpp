// expect: clean; `T y = cilk_spawn f(x)` writes the result once
#include <cilk/cilk.h>
#include <string>
static int f(int i) { return i; }
static std::string g(int i) { return std::string(i, 'x'); }
int main() {
  int sum = 0;
  for (int i = 0; i < 3; i++) {
    int y = cilk_spawn f(i);
    const long z = cilk_spawn f(i);
    auto s = cilk_spawn g(i + 40);
    cilk_sync;
    sum += y + z + s.size();
  }
  return sum - 129;
}
