// expect: clean; unseen: virtual functions of std::pmr::monotonic_buffer_resource; flags: -std=c++17; both strands take from one pool, by functions of the library that its virtual table names
#include <cilk/cilk.h>
#include <memory_resource>
#include <vector>
static std::pmr::monotonic_buffer_resource pool;
static void fill(std::pmr::vector<int> &v) {
  for (int i = 0; i < 9; i++) v.push_back(i);
}
int main() {
  std::pmr::vector<int> one(&pool), other(&pool);
  cilk_spawn fill(one);
  fill(other);
  cilk_sync;
  return int(one.size() + other.size()) - 18;
}
