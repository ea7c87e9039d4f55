/* expect: race; functions and variables of the program's own that have names of the library's */
#include <cilk/cilk.h>
static long total, index;
int time;
static void read(int k) {
  total += k; /* race: a a */
  index++;    /* race: b b */
  time = k;   /* race: c c */
}
static void malloc(int k) { total += k; /* race: d d */ }
int main(void) {
  cilk_spawn read(1); /* spawn: a b c */
  read(2);
  cilk_sync;
  cilk_spawn malloc(1); /* spawn: d */
  malloc(2);
  cilk_sync;
  return total + index + time != 10;
}
