/* expect: clean; atomic accesses do not race with one another (C11 5.1.2.4), plain ones come before and behind */
#include <cilk/cilk.h>
#include <stdatomic.h>
_Atomic long count, last;
atomic_flag flag = ATOMIC_FLAG_INIT;
static void child(int i) {
  long seen = atomic_fetch_add(&count, i);
  count++;
  atomic_store(&last, seen);
  atomic_exchange_explicit(&last, i, memory_order_relaxed);
  atomic_compare_exchange_strong(&last, &seen, 3);
  if (!atomic_flag_test_and_set(&flag))
    atomic_flag_clear(&flag);
}
int main(void) {
  for (int i = 0; i < 9; i++)
    cilk_spawn child(i);
  long seen = atomic_load(&count);
  cilk_sync;
  return count - 45 + (seen < 0);
}
