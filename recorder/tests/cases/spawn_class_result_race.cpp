// expect: race; levels: all; results of classes are written by the child: in the callee where it makes them in place
#include <cilk/cilk.h>
struct plain { long a, b, c; };
struct counted {
  int value;
  explicit counted(int n) : value(n) {} /* race: a c */
  counted(const counted &other) : value(other.value) {}
  counted &operator=(const counted &other) { value = other.value; return *this; } /* race: b */
  ~counted() {}
};
static counted make(int n) { return counted(n); }
static plain three(int n) { return {n, n, n}; }
static const int &larger(const int &one, const int &other) { return one < other ? other : one; }
int main() {
  counted x = cilk_spawn make(1); /* spawn: a */
  int sum = x.value; /* race: a */
  cilk_sync;
  x = cilk_spawn make(2); /* spawn: b */
  sum += x.value; /* race: b */
  cilk_sync;
  const counted &r = cilk_spawn make(3); /* race: d, spawn: c d */
  sum += r.value; /* race: c d */
  cilk_sync;
  int one = 1, two = 2;
  const int &bigger = cilk_spawn larger(one, two); /* race: e, spawn: e */
  sum += bigger; /* race: e */
  cilk_sync;
  const int &copied = cilk_spawn static_cast<int (*)(int)>([](int k) { return k; })(4); /* race: f, spawn: f */
  sum += copied; /* race: f */
  cilk_sync;
  plain y;
  y = cilk_spawn three(5); /* race: g, spawn: g */
  sum += static_cast<int>(y.c); /* race: g */
  cilk_sync;
  return sum - (1 + 2 + 3 + 2 + 4 + 5);
}
