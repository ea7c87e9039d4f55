// expect: race; levels: all; each kind of callee: what it writes is the child's, what its arguments write is not
#include <cilk/cilk.h>
#include <functional>
#include <memory>
#include <vector>
static int x, y;
static int touch(int k) { y++; return k; }
static int plain(int k) { x = k; return k; } /* race: a */
template <class T> static T generic(T k) { x = k; return k; } /* race: b */
template <int N> static int number(int k) { x = k + N; return k; } /* race: c */
struct functor { int n; int operator()(int k) const { x = k; return k + n; } }; /* race: d */
struct base {
  virtual ~base() {}
  virtual int run(int k) { return k; }
  int stay(int k) { x = k; return k; } /* race: e */
  int operator+(int k) const { x = k; return k; } /* race: f */
  base *self() { return this; }
};
struct derived : base { int run(int k) override { x = k; return k; } }; /* race: g */
namespace deep { struct tag {}; static int found(tag, int k) { x = k; return k; } } /* race: h */
static functor maker(int n) { return functor{n}; }
int main() {
  derived it;
  base *pointer = &it;
  std::unique_ptr<base> owner(new derived);
  functor object{1};
  std::function<int(int)> any = plain;
  std::vector<std::function<int(int)>> many(2, any);
  int (*function)(int) = plain, (&reference)(int) = plain;
  int (base::*member)(int) = &base::run, (base::*fixed)(int) = &base::stay;
  auto named = [&](int k) { x = k; return k; }; /* race: i */
  int sum = 0, r;
  cilk_spawn plain(touch(1)); y = 0; x = 0; /* race: a, spawn: a */
  cilk_sync;
  r = cilk_spawn generic<int>(touch(1)); y = 0; x = 0; /* race: b, spawn: b */
  cilk_sync; sum += r;
  r = cilk_spawn number<2>(touch(1)); y = 0; x = 0; /* race: c, spawn: c */
  cilk_sync; sum += r;
  r = cilk_spawn object(touch(1)); y = 0; x = 0; /* race: d, spawn: d */
  cilk_sync; sum += r;
  r = cilk_spawn maker(touch(2))(touch(1)); y = 0; x = 0; /* race: d, spawn: d */
  cilk_sync; sum += r;
  r = cilk_spawn pointer->stay(touch(1)); y = 0; x = 0; /* race: e, spawn: e */
  cilk_sync; sum += r;
  r = cilk_spawn pointer->operator+(touch(1)); y = 0; x = 0; /* race: f, spawn: f */
  cilk_sync; sum += r;
  r = cilk_spawn pointer->run(touch(1)); y = 0; x = 0; /* race: g, spawn: g */
  cilk_sync; sum += r;
  r = cilk_spawn owner->self()->run(touch(1)); y = 0; x = 0; /* race: g, spawn: g */
  cilk_sync; sum += r;
  r = cilk_spawn (pointer->*member)(touch(1)); y = 0; x = 0; /* race: g, spawn: g */
  cilk_sync; sum += r;
  r = cilk_spawn (it.*fixed)(touch(1)); y = 0; x = 0; /* race: e, spawn: e */
  cilk_sync; sum += r;
  r = cilk_spawn found(deep::tag(), touch(1)); y = 0; x = 0; /* race: h, spawn: h */
  cilk_sync; sum += r;
  r = cilk_spawn named(touch(1)); y = 0; x = 0; /* race: i, spawn: i */
  cilk_sync; sum += r;
  r = cilk_spawn [&](int k) { x = k; return k; }(touch(1)); y = 0; x = 0; /* race: j j, spawn: j */
  cilk_sync; sum += r;
  r = cilk_spawn any(touch(1)); y = 0; x = 0; /* race: a, spawn: a */
  cilk_sync; sum += r;
  r = cilk_spawn many[1](touch(1)); y = 0; x = 0; /* race: a, spawn: a */
  cilk_sync; sum += r;
  r = cilk_spawn function(touch(1)); y = 0; x = 0; /* race: a, spawn: a */
  cilk_sync; sum += r;
  r = cilk_spawn (sum ? function : plain)(touch(1)); y = 0; x = 0; /* race: a, spawn: a */
  cilk_sync; sum += r;
  r = cilk_spawn reference(touch(1)); y = 0; x = 0; /* race: a, spawn: a */
  cilk_sync; sum += r;
  return sum - 21;
}
