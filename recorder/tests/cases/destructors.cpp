// expect: clean; the implied sync comes before locals end; the value of a return comes before that
#include <cilk/cilk.h>
#include <vector>
static void fill(std::vector<int> &v) { for (int &x : v) x = 1; }
static int f() { std::vector<int> v(9); cilk_spawn fill(v); return 3; }
static void h(int n) { std::vector<int> v(9); cilk_spawn fill(v); if (n) return; v.size(); }
int main() {
  int sum = f();
  h(0);
  h(1);
  return sum - 3;
}
