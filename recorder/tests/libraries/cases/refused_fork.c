/* expect: refused; plain: no; says: process; a copy of the process */
#include <unistd.h>
int main(void) {
  return fork() < 0; /* refused */
}
