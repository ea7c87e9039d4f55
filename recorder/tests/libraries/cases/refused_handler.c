/* expect: refused; plain: no; says: handler; a handler of a signal */
#include <signal.h>
static int count;
static void handle(int number) { count += number; }
int main(void) {
  signal(SIGPIPE, SIG_IGN);
  signal(SIGUSR1, handle); /* refused */
  return 0;
}
