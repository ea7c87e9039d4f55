// expect: clean; exceptions of children, with a text, and dynamic_cast
#include <cilk/cilk.h>
#include <stdexcept>
#include <string>
struct Base {
  virtual ~Base() = default;
};
struct Left : Base {
  int value = 3;
};
static int value(const Base *of) {
  if (auto *left = dynamic_cast<const Left *>(of)) return left->value;
  throw std::invalid_argument(std::string("no ") + "left");
}
static int both(const Base *a, const Base *b) {
  try {
    int x = cilk_spawn value(a);
    int y = value(b);
    cilk_sync;
    return x + y;
  } catch (const std::logic_error &error) {
    return std::string(error.what()) == "no left" ? 1 : 2;
  }
}
int main() {
  Left left;
  Base base;
  return both(&left, &left) + both(&left, &base) - 7;
}
