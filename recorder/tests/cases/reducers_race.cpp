// expect: race; a value is read while a child is outstanding, and set while one is
#include <cilk/cilk.h>
#include <cilk/reducer.h>
#include <cilk/reducer_opadd.h>
static void add(cilk::reducer<cilk::op_add<long>> &sum) { *sum += 1; }
int main() {
  cilk::reducer<cilk::op_add<long>> sum(0); /* race: a b */
  cilk_spawn add(sum);
  long early = sum.get_value(); /* race: a */
  sum.set_value(3);             /* race: b */
  cilk_sync;
  return early + sum.get_value() - 4;
}
