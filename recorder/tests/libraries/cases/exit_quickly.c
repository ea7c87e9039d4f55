/* expect: race; quick_exit calls its handlers, and ends the program without its destructors */
#include <cilk/cilk.h>
#include <stdio.h>
#include <stdlib.h>
int x;
static void set(void) { x = 1; } /* race: a */
static void last(void) {
  printf("%d\n", x);
  fflush(stdout);
}
static int run(void) {
  cilk_spawn set();
  x = 2; /* race: a */
  cilk_sync;
  return x;
}
int main(void) {
  at_quick_exit(last);
  quick_exit(run());
}
