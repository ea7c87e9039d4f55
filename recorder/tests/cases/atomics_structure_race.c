/* expect: race; flags: -latomic; an atomic structure is accessed by functions of the compiler's library */
#include <cilk/cilk.h>
#include <stdatomic.h>
struct three { long at[3]; };
static _Atomic struct three all, other;
static void child(void) {
  struct three it = {{1, 2, 3}};
  atomic_store(&other, it);
  atomic_store(&all, it);  /* race: a */
}
int main(void) {
  cilk_spawn child(); /* spawn: a */
  struct three seen = atomic_load(&other);
  ((long *)&all)[2] = 1;   /* race: a */
  cilk_sync;
  return (int)(seen.at[0] - 1);
}
