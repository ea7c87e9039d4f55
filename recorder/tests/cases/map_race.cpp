// expect: race; insertions into one std::map: the library rebalances nodes out of line
#include <cilk/cilk.h>
#include <map>
static void add(std::map<int, int> &m, int from) {
  for (int i = 0; i < 20; i++)
    m[from + i] = i; /* race: a a */
}
int main() {
  std::map<int, int> m;
  cilk_spawn add(m, 0); /* spawn: a */
  add(m, 20);
  cilk_sync;
  return m.size() - 40;
}
