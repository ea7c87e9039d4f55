// expect: race; a lambda that captures by reference, and a method on one object
#include <cilk/cilk.h>
struct Counter { int count = 0; void add(int x) { count += x; } }; /* race: b b */
int main() {
  int sum = 0;
  auto add = [&sum](int x) { sum += x; }; /* race: a */
  cilk_spawn add(1); /* spawn: a */
  sum += 2;          /* race: a */
  cilk_sync;
  Counter counter;
  cilk_spawn counter.add(1); /* spawn: b */
  counter.add(2);
  cilk_sync;
  return sum + counter.count - 6;
}
