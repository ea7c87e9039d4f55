// expect: clean; static objects of functions, with memory of their own, made by whichever strand comes first; one whose making throws
#include <cilk/cilk.h>
#include <map>
#include <stdexcept>
#include <string>
static int tries;
static int make() {
  if (!tries++) throw std::runtime_error("once");
  return 5;
}
static const std::map<int, std::string> &names() {
  static const std::map<int, std::string> all = {{1, "a name that is long enough for a block"}, {2, "two"}};
  return all;
}
static int number() {
  static int made = make();
  return made;
}
static int use(int key) { return int(names().at(key).size()); }
int main() {
  try {
    number();
    return 1;
  } catch (const std::runtime_error &error) {
    if (std::string(error.what()) != "once") return 2;
  }
  int a = cilk_spawn use(1);
  int b = cilk_spawn use(2);
  int c = cilk_spawn number();
  int d = number();
  cilk_sync;
  return a + b - 38 - 3 + c - d;
}
