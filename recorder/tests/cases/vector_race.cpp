// expect: race; push_back into a vector that a child reads
#include <cilk/cilk.h>
#include <vector>
static int total(const std::vector<int> &v) {
  int sum = 0;
  for (int x : v) /* race: a */
    sum += x;     /* race: a */
  return sum;
}
int main() {
  std::vector<int> v(3, 1);
  int sum = cilk_spawn total(v); /* spawn: a */
  v.push_back(4); /* race: a */
  cilk_sync;
  return sum - 3;
}
