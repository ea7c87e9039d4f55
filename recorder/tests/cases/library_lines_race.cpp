// expect: race; levels: all; what the library's headers access counts as the line that calls into them, also through a template of one's own
#include <cilk/cilk.h>
#include <algorithm>
#include <functional>
#include <map>
#include <memory>
#include <string>
#include <vector>
template <class T> static void append(T &all, int x) { all.push_back(x); } /* race: a a */
static int total(const std::vector<int> &v) { return v[1]; } /* race: b */
static void turn(std::vector<int> &v) {
  std::reverse(v.begin(), v.end()); /* race: c */
}
static void rename(std::map<int, std::string> &names) {
  names.at(1) = "long enough to be a block of its own"; /* race: d */
}
static int length(const std::shared_ptr<std::string> &text) { return text->size(); } /* race: e */
static void call(const std::function<void(int)> &function) { function(3); }
int main() {
  std::vector<int> v(3, 1), w = {1, 3, 2};
  cilk_spawn append(v, 1); /* spawn: a */
  append(v, 2);
  cilk_sync;
  int sum = cilk_spawn total(v); /* spawn: b */
  v[1] = 5; /* race: b */
  cilk_sync;
  cilk_spawn turn(w); /* spawn: c */
  sum += w.at(0); /* race: c */
  cilk_sync;
  std::map<int, std::string> names = {{1, "one"}};
  cilk_spawn rename(names); /* spawn: d */
  sum += names[1].size(); /* race: d */
  cilk_sync;
  auto text = std::make_shared<std::string>("text");
  sum += cilk_spawn length(text); /* spawn: e */
  text->clear(); /* race: e */
  cilk_sync;
  int seen = 0;
  cilk_spawn call([&](int x) { seen = x; }); /* race: f, spawn: f */
  seen = 4; /* race: f */
  cilk_sync;
  return sum + seen > 0 ? 0 : 1;
}
