/* expect: race; levels: all; two bit-fields of one unit are one place in memory, and so are the bytes of a packed member */
#include <cilk/cilk.h>
struct flags { unsigned low : 3, high : 5; };
struct __attribute__((packed)) packed { char first; int second; };
static int value(int n) { return n; }
int main(void) {
  struct flags f = {0}, *p = &f;
  struct packed q = {0}, *r = &q;
  f.low = cilk_spawn value(5); /* race: a, spawn: a */
  f.high = 7; /* race: a */
  cilk_sync;
  p->high = cilk_spawn value(9); /* race: b, spawn: b */
  int low = p->low; /* race: b */
  cilk_sync;
  r->second = cilk_spawn value(6); /* race: c, spawn: c */
  q.second++; /* race: c */
  cilk_sync;
  return low - 5;
}
