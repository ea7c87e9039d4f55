// expect: clean; two strands print by std::cout, each with its own text; the standard lets them
#include <cilk/cilk.h>
#include <iostream>
#include <string>
static void print(const std::string &text) { std::cout << text << ' ' << text.size() << std::endl; }
int main() {
  std::string a = "one", b = "two", c = "three";
  cilk_spawn print(a);
  cilk_spawn print(b);
  std::cerr << c << 1.5 << '\n';
  cilk_sync;
  std::cout << std::hex << 255 << "\n";
  return 0;
}
