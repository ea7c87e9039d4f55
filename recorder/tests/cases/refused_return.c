/* expect: refused; plain: no; nor return from its function */
#include <cilk/cilk.h>
int a[9];
int main(void) {
  cilk_for (int i = 0; i < 9; i++) {
    if (a[i])
      return 1; /* refused */
    a[i] = 1;
  }
  return 0;
}
