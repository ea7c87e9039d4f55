// expect: race; spawns in constructors, destructors, lambdas, templates, operators, try blocks, and as parts of statements
#include <cilk/cilk.h>
#include <vector>
static int x;
static int set(int k) { x = k; return k; } /* race: a b c d e f g */
static int get(int k) { return k; }
template <class T> struct base { T kept; explicit base(T k) : kept(k) {} };
template <class T> struct holder : base<T> {
  std::vector<T> many;
  T one;
  holder(T k) : base<T>(k), many{k, k}, one(k) {
    cilk_spawn set(1); /* spawn: a */
    x = 2; /* race: a */
    cilk_sync;
    one = cilk_spawn get(3);
    many[1] = cilk_spawn get(4);
    this->kept = cilk_spawn get(5);
  }
  ~holder() {
    cilk_spawn set(1); /* spawn: b */
    x = 3; /* race: b */
  }
  int sum() { return one + many[0] + many[1] + this->kept; }
  template <class U> int operator()(U k) {
    auto r = cilk_spawn set(k); /* spawn: c */
    x = 4; /* race: c */
    cilk_sync;
    return r;
  }
};
int main() {
  int sum = 0;
  {
    holder<int> it(7);
    sum += it.sum() + it(5);
  }
  auto body = [&](int k) {
    int r = cilk_spawn set(k); /* spawn: d */
    x = 6; /* race: d */
    cilk_sync;
    return r;
  };
  sum += body(1);
  try {
    cilk_spawn set(2); /* spawn: e */
    x = 7; /* race: e */
  } catch (...) {
  }
  if (sum) cilk_spawn set(3); /* spawn: f */
  else sum = cilk_spawn get(1);
  x = 8; /* race: f */
  cilk_sync;
  for (int i : {1, 2}) { cilk_spawn set(i); x = i; cilk_sync; } /* race: g, spawn: g */
  return sum - (3 + 7 + 4 + 5 + 5 + 1);
}
