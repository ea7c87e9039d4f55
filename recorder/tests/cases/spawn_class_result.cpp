// expect: clean; levels: all; results of classes: declared, assigned, ignored, bound to references, in loops
#include <cilk/cilk.h>
#include <string>
#include <vector>
struct counted {
  int value;
  explicit counted(int n) : value(n) {}
  counted(const counted &other) : value(other.value) {}
  counted(counted &&other) noexcept : value(other.value) { other.value = 0; }
  counted &operator=(const counted &other) { value = other.value; return *this; }
  ~counted() { value = -1; }
};
static counted make(int n) { return counted(n); }
static std::string text(int n) { return std::string(static_cast<size_t>(n), 'x'); }
static std::vector<int> numbers(int n) { return std::vector<int>(static_cast<size_t>(n), n); }
int main() {
  counted a = cilk_spawn make(1);
  std::string b = cilk_spawn text(30);
  auto c = cilk_spawn numbers(3);
  const counted &d = cilk_spawn make(2);
  auto &&e = cilk_spawn make(3);
  counted f(4);
  f = cilk_spawn make(5);
  for (int i = 0; i < 3; i++) cilk_spawn make(i);
  for (int i = 0; i < 3; i++) { counted g = cilk_spawn make(i); cilk_sync; f.value += g.value; }
  cilk_sync;
  return a.value + static_cast<int>(b.size() + c.size()) + d.value + e.value + f.value - (1 + 33 + 2 + 3 + 8);
}
