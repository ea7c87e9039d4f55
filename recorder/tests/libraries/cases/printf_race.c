/* expect: race; printf reads its strings */
#include <cilk/cilk.h>
#include <stdio.h>
static char a[] = "abcdef";
static void print(void) { printf("%d %.4s\n", 1, a); } /* race: a */
int main(void) {
  cilk_spawn print();
  a[3] = 'd'; /* race: a */
  a[4] = 'e';
  cilk_sync;
  return 0;
}
