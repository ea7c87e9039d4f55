/* expect: refused; plain: no; a round of a cilk_for cannot end the others */
#include <cilk/cilk.h>
int a[9];
int main(void) {
  cilk_for (int i = 0; i < 9; i++) {
    if (a[i])
      break; /* refused */
    a[i] = 1;
  }
  return 0;
}
