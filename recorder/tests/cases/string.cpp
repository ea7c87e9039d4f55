// expect: clean; strings, streams of strings and conversions of each child's own
#include <cilk/cilk.h>
#include <sstream>
#include <string>
static std::string label(const std::string &s, int i) { return s + std::to_string(i) + s; }
static int count(int n) { std::ostringstream out; for (int i = 0; i < n; i++) out << i << ','; return out.str().size(); }
int main() {
  std::string names[4];
  int sizes[4];
  for (int i = 0; i < 4; i++) {
    names[i] = cilk_spawn label("a name that is long enough for the heap", i);
    sizes[i] = cilk_spawn count(20 * i);
  }
  cilk_sync;
  return names[3].size() + sizes[1] - 129;
}
