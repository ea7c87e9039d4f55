// expect: race; the race is on links and colours that only the library's own code writes while another strand walks
#include <cilk/cilk.h>
#include <set>
static int walk(const std::set<int> &s) {
  int sum = 0;
  for (auto it = s.begin(); it != s.end(); ++it) /* race: a */
    sum += *it; /* race: a; the element goes with its node */
  return sum;
}
int main() {
  std::set<int> s;
  for (int i = 0; i < 30; i++) s.insert(i);
  int sum = cilk_spawn walk(s); /* spawn: a */
  s.erase(7); /* race: a */
  cilk_sync;
  return sum - 435;
}
