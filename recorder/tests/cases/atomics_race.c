/* expect: race; an atomic and a plain access race where one of them modifies; reads do not */
#include <cilk/cilk.h>
#include <stdatomic.h>
long a, b, c, d;
static void child(void) {
  __atomic_fetch_add(&a, 1, __ATOMIC_SEQ_CST); /* race: a */
  (void)__atomic_load_n(&b, __ATOMIC_SEQ_CST); /* race: b */
  __atomic_store_n(&c, 1, __ATOMIC_RELAXED);   /* race: c */
  (void)__atomic_load_n(&d, __ATOMIC_RELAXED);
}
int main(void) {
  cilk_spawn child(); /* spawn: a b c */
  long seen = a;      /* race: a */
  b = 1;              /* race: b */
  c = 2;              /* race: c */
  seen += d;
  cilk_sync;
  return seen - 1;
}
