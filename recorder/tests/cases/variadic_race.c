/* expect: race; levels: all; what va_arg reads is a copy of the call's; what it points to, and structures on their way there, are shared */
#include <cilk/cilk.h>
#include <stdarg.h>
struct large { long at[6]; } large;
static int x;
static long sum(int count, ...) {
  va_list list;
  long total = 0;
  va_start(list, count);
  struct large it = va_arg(list, struct large);
  while (count--)
    total += *va_arg(list, int *); /* race: b */
  va_end(list);
  return total + it.at[5];
}
static void child(void) { sum(1, large, &x); } /* race: a */
int main(void) {
  cilk_spawn child(); /* spawn: a b */
  large.at[5] = 1;    /* race: a */
  x = 1;              /* race: b */
  cilk_sync;
  return 0;
}
