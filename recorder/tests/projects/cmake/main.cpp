#include "sorting/sort.hpp"
#include <algorithm>
#include <cstdio>
int main() {
  Numbers numbers(1000);
  shuffle(numbers.data(), 1000);
  sort(numbers.begin(), numbers.end());
  std::printf("%d\n", (int)std::is_sorted(numbers.begin(), numbers.end()));
}
