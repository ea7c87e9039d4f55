/* expect: refused; a jump out of a child would end it unseen */
#include <cilk/cilk.h>
#include <setjmp.h>
static jmp_buf back;
static void child(void) { longjmp(back, 1); } /* refused */
int main(void) {
  if (setjmp(back)) /* refused */
    return 0;
  cilk_spawn child();
  cilk_sync;
  return 1;
}
