// expect: clean; children write elements of their own; iterators that go on; push_back of each child's own vector
#include <cilk/cilk.h>
#include <algorithm>
#include <numeric>
#include <vector>
static void fill(std::vector<int>::iterator a, std::vector<int>::iterator b) { for (; a != b; ++a) *a = 1; }
static long own(int n) { std::vector<long> v; for (int i = 0; i < n; i++) v.push_back(n - i); std::sort(v.begin(), v.end()); return v[0]; }
template <class It> void quicksort(It first, It last) {
  if (last - first < 32) { std::sort(first, last); return; }
  auto pivot = *(last - 1);
  It middle = std::partition(first, last - 1, [pivot](int x) { return x < pivot; });
  std::swap(*middle, *(last - 1));
  cilk_spawn quicksort(first, middle);
  quicksort(middle + 1, last);
  cilk_sync;
}
int main() {
  std::vector<int> v(400);
  auto from = v.begin();
  while (from != v.end()) {
    auto to = from + 10;
    cilk_spawn fill(from, to);
    from = to;
  }
  cilk_sync;
  std::vector<long> w(30);
  cilk_for (int i = 0; i < 30; i++) w[i] = own(i + 1);
  unsigned seed = 1;
  for (int &x : v) x = (seed = seed * 1664525 + 1013904223) >> 8;
  quicksort(v.begin(), v.end());
  return !std::is_sorted(v.begin(), v.end()) + std::accumulate(w.begin(), w.end(), 0L) - 30;
}
