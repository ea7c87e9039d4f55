/* expect: refused; plain: no; a handler that touches memory runs at any moment */
#include <cilk/cilk.h>
#include <signal.h>
static int x;
static void handle(int signal) { x = signal; }
int main(void) {
  signal(SIGUSR1, handle); /* refused */
  raise(SIGUSR1); /* refused */
  return x == 0;
}
