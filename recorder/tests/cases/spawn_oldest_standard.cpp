// expect: race; flags: -std=c++98; spawns of calls need nothing of C++11
#include <cilk/cilk.h>
struct counted { int value; counted(int n) : value(n) {} ~counted() {} };
static int x;
static int set(int k) { x = k; return k; } /* race: a */
static int look(const counted &it) { return it.value; }
int main() {
  int many[2] = {0, 0};
  int r = cilk_spawn set(1); /* race: b, spawn: a b */
  int seen = x; /* race: a */
  seen += r; /* race: b */
  many[1] = cilk_spawn look(counted(2));
  cilk_sync;
  return seen + many[1] - 4;
}
