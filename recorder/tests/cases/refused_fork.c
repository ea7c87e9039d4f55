/* expect: refused; plain: no; two processes would write one recording */
#include <cilk/cilk.h>
#include <unistd.h>
int main(void) {
  if (fork() == 0) /* refused */
    _exit(0);
  return 0;
}
