/* expect: clean; a signal that is ignored has no handler */
#include <signal.h>
int main(void) {
  signal(SIGPIPE, SIG_IGN);
  struct sigaction action = {.sa_handler = SIG_DFL};
  return sigaction(SIGUSR1, &action, 0);
}
