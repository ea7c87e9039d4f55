// expect: race; the format of std::cout is set while another strand prints
#include <cilk/cilk.h>
#include <iomanip>
#include <iostream>
static void print() { std::cout << 17 << '\n'; } /* race: a */
int main() {
  cilk_spawn print();
  std::cout << std::setw(3); /* race: a */
  cilk_sync;
  return 0;
}
