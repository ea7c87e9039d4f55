/* expect: refused; plain: no; says: jump; a jump out of functions */
#include <setjmp.h>
static jmp_buf back;
static void leave(void) { longjmp(back, 1); } /* refused */
int main(void) {
  if (!setjmp(back)) leave();
  return 0;
}
