// expect: clean; unseen: hcreate; flags: -D_GNU_SOURCE; what a pointer leads to that no list knows is named
#include <cilk/cilk.h>
#include <search.h>
int main() {
  int (*make)(size_t) = hcreate;
  cilk_spawn make(8);
  cilk_sync;
  return 0;
}
