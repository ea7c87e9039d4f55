/* expect: race; memory of alloca that children share: calls between them do not end its life */
#include <cilk/cilk.h>
#include <alloca.h>
static void add(int *all) { all[2]++; } /* race: a a */
static void nothing(int *at) { int x[50]; x[3] = *at; (void)x; }
int main(void) {
  int n = 5, *all = alloca(n * sizeof *all + 40), v[n];
  all[2] = v[0] = 0;
  cilk_spawn add(all); /* spawn: a */
  nothing(v);
  cilk_spawn add(all);
  nothing(v);
  cilk_sync;
  return all[2] - 2;
}
