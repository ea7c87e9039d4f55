// expect: refused; says: put their results into variables first; a virtual operator= behind a virtual call
#include <cilk/cilk.h>
struct value { int n = 0; virtual ~value() {} virtual value &operator=(int k) { n = k; return *this; } };
struct list { virtual ~list() {} virtual int size() { return 3; } };
int main() {
  list it, *first = &it;
  value one, *to = &one;
  *to = cilk_spawn first->size(); /* refused */
  cilk_sync;
  return one.n - 3;
}
