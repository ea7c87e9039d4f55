// expect: clean; counts of references are atomic
#include <cilk/cilk.h>
#include <memory>
static int use(std::shared_ptr<int> p) { return *p; }
int main() {
  auto p = std::make_shared<int>(7);
  std::shared_ptr<int> a = p, b = p;
  int x = cilk_spawn use(a);
  int y = cilk_spawn use(b);
  std::weak_ptr<int> w = p;
  int z = *w.lock();
  cilk_sync;
  return x + y + z - 21;
}
