/* expect: clean; levels: all; the child writes the unit of the bit-field alone; a packed member is no wider than its bytes */
#include <cilk/cilk.h>
struct flags { unsigned low : 3, high : 5; int : 0; int whole; };
struct __attribute__((packed)) packed { char first; int second; char third; };
static int value(int n) { return n; }
int main(void) {
  struct flags f = {0}, *p = &f, many[2] = {{0}};
  struct packed q = {0}, *r = &q;
  f.low = cilk_spawn value(5);
  f.whole = 7;
  cilk_sync;
  p->high = cilk_spawn value(9);
  f.whole += 1;
  cilk_sync;
  many[f.low - 4].low = cilk_spawn value(2);
  many[0].low = 1;
  cilk_sync;
  r->second = cilk_spawn value(6);
  q.first = 1, q.third = 2;
  cilk_sync;
  q.second += cilk_spawn value(1);
  cilk_sync;
  return f.low + f.high + f.whole + many[0].low + many[1].low + q.first + q.second + q.third - (5 + 9 + 8 + 1 + 2 + 1 + 7 + 2);
}
