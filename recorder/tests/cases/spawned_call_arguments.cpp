// expect: race; arguments' calls are the spawner's; a callee may have no access
#include <cilk/cilk.h>
#include <string>
static int x, y, z;
static int two(int k) { x = k; return 2; }
static int same(int k) { return k; }
static void set(int k) { y = k; } /* race: a */
struct Counter { int count = 0; virtual int next(int k) { return count += k; } virtual ~Counter() {} };
template <class T> static void put(T k) { z = k; } /* race: b */
static std::string text(int k) { return std::string(k, 'x'); }
static int length;
static void measure(const std::string &s) { length = s.size(); } /* race: c */
int main() {
  Counter counter;
  Counter *pointer = &counter;
  cilk_spawn set(two(1)); /* spawn: a */
  x = 3;
  y = same(x); /* race: a */
  cilk_sync;
  cilk_spawn same(two(4));
  cilk_spawn { }
  cilk_for (int i = 0; i < 2; i++) { }
  x = 5;
  cilk_sync;
  cilk_spawn put<long>(pointer->next(2)); /* spawn: b */
  counter.count = 7;
  z = 1; /* race: b */
  cilk_sync;
  cilk_spawn measure(text(2)); /* spawn: c */
  length = 3; /* race: c */
  cilk_sync;
  return x + y + z + length + counter.count - 19;
}
