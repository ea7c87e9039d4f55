// expect: race; one stream of a string for two strands
#include <cilk/cilk.h>
#include <sstream>
static void put(std::ostringstream &s, int n) { s << n; } /* race: a a */
int main() {
  std::ostringstream one, two, both;
  cilk_spawn put(one, 1);
  put(two, 2);
  cilk_sync;
  cilk_spawn put(both, 1);
  put(both, 2);
  cilk_sync;
  return one.str() != "1" || two.str() != "2" || both.str() != "12";
}
