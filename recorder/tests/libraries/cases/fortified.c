/* expect: race; levels: all; flags: -D_FORTIFY_SOURCE=2; from: -O2; the checked variants of functions */
#include <cilk/cilk.h>
#include <stdio.h>
#include <string.h>
static char a[16], b[16] = "text", c[16], d[32];
static void use(int n) {
  memcpy(a, b, (size_t)n);
  strcpy(c, b);
  strncpy(c + 5, b, 11);
  snprintf(d, sizeof d, "%s-%d", b, n); /* race: a */
  printf("%s\n", d);
}
int main(void) {
  cilk_spawn use(5);
  d[7] = 1;
  a[5] = 1;
  d[6] = 0; /* race: a */
  cilk_sync;
  return 0;
}
