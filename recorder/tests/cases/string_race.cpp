// expect: race; two strands append to one std::string; the places of the library's templates count as the lines in this file
#include <cilk/cilk.h>
#include <string>
static void add(std::string &s, const char *x) {
  for (int i = 0; i < 40; i++)
    s += x; /* race: a a */
}
int main() {
  std::string s = "a";
  cilk_spawn add(s, "b"); /* spawn: a */
  add(s, "c");
  cilk_sync;
  return s.size() - 81;
}
