// expect: clean; unseen: ; containers of each child's own
#include <cilk/cilk.h>
#include <deque>
#include <list>
#include <map>
#include <memory>
#include <set>
#include <unordered_map>
static long own(int n) {
  std::map<int, long> m; std::list<int> l; std::set<int> s; std::unordered_map<int, int> u; std::deque<int> d;
  for (int i = 0; i < n; i++) { m[i * 7 % n] = i; l.push_back(i); s.insert(i * 5 % n); u[i] = i; d.push_front(i); }
  auto p = std::make_shared<int>(n); auto q = p; std::unique_ptr<int> r(new int(3));
  l.sort(); s.erase(3); u.erase(2); m.erase(1);
  return m.size() + l.size() + s.size() + u.size() + d.size() + *q + *r;
}
int main() {
  long sum = 0;
  cilk_for (int i = 0; i < 6; i++) own(20 + i);
  sum = own(20);
  return sum - 119;
}
