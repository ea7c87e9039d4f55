// expect: race; std::list hooks its nodes out of line
#include <cilk/cilk.h>
#include <list>
static void add(std::list<int> &all) { all.push_back(1); } /* race: a a */
int main() {
  std::list<int> all;
  cilk_spawn add(all); /* spawn: a */
  add(all);
  cilk_sync;
  return all.size() - 2;
}
