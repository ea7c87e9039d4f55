/* expect: race; _exit ends the program without its destructors; the recording is whole */
#include <cilk/cilk.h>
#include <unistd.h>
int x;
static void set(void) { x = 1; } /* race: a */
static int run(void) {
  cilk_spawn set();
  x = 2; /* race: a */
  cilk_sync;
  return x;
}
int main(void) { _exit(run()); }
