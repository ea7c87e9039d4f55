/* expect: refused; plain: no; says: process; another program in the process */
#include <unistd.h>
int main(void) {
  execlp("true", "true", (char *)0); /* refused */
  return 1;
}
