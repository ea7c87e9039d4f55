// expect: clean; lambdas, function objects, methods, pointers to methods, virtual methods, templates, std::function
#include <cilk/cilk.h>
#include <functional>
#include <vector>
struct Shape { int side = 1; virtual int area() const { return side; } virtual ~Shape() {} void grow(int by) { side += by; } static int unit() { return 1; } };
struct Square : Shape { int area() const override { return side * side; } };
struct Add { int *to; void operator()(int x) const { *to += x; } };
template <class T> T twice(T x) { return x + x; }
int main() {
  std::vector<Square> all(5);
  std::vector<int> areas(5), twos(5);
  for (int i = 0; i < 5; i++) cilk_spawn all[i].grow(i);
  cilk_sync;
  for (int i = 0; i < 5; i++) {
    const Shape *shape = &all[i];
    areas[i] = cilk_spawn shape->area();
    twos[i] = cilk_spawn twice<int>(i);
  }
  cilk_sync;
  for (int i = 0; i < 5; i++) cilk_spawn [&areas](int k) { areas[k] += 1; }(i);
  for (int i = 0; i < 5; i++) { Add add{&twos[i]}; cilk_spawn add(1); cilk_sync; }
  std::function<void(int)> f = [&twos](int k) { twos[k]++; };
  cilk_spawn f(2);
  cilk_sync;
  auto unit = cilk_spawn Shape::unit();
  cilk_sync;
  return areas[4] + twos[4] + twos[2] + unit - 42;
}
