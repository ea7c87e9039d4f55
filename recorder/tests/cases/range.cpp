// expect: clean; cilk_for over iterators and pointers, downward, with steps
#include <cilk/cilk.h>
#include <vector>
int main() {
  std::vector<long> v(20, 1);
  int a[10] = {0};
  cilk_for (auto it = v.begin(); it != v.end(); ++it) { if (it == v.begin()) continue; *it += 2; }
  cilk_for (int *p = a; p < a + 10; p += 3) *p = 1;
  cilk_for (long i = 19; i > 0; i -= 2) { auto f = [&](long k) { return k * i; }; v[i] = f(2); }
  return v[2] + v[5] + a[9] - 14;
}
