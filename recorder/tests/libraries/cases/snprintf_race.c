/* expect: race; snprintf writes its text and the NUL behind it, and %n a number */
#include <cilk/cilk.h>
#include <stdio.h>
static char to[16];
static int count;
static void print(void) { snprintf(to, 16, "%s%n", "abc", &count); } /* race: a */
int main(void) {
  cilk_spawn print();
  to[4] = 1;
  to[3] = 0; /* race: a */
  int seen = count; /* race: a */
  cilk_sync;
  return seen - 3;
}
