// expect: clean; an argument by value is copied by the spawner
#include <cilk/cilk.h>
#include <string>
static int f(std::string s) { s += "c"; return s.size(); }
int main() {
  std::string s = "a";
  for (int i = 0; i < 3; i++) {
    cilk_spawn f(s);
    s += "a string that grows beyond what fits into the object itself";
  }
  cilk_sync;
  return s.size() == 0;
}
