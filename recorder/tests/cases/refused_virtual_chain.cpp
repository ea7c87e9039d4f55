// expect: refused; says: put their results into variables first; the last virtual call could be the conversion of a result
#include <cilk/cilk.h>
struct list { virtual ~list() {} virtual list *next() { return this; } virtual int size() { return 3; } };
int main() {
  list it, *first = &it;
  int x = cilk_spawn first->next()->size(); /* refused */
  cilk_sync;
  return x - 3;
}
