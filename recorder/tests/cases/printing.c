/* expect: clean; children print; streams lock themselves, and the order of lines is not a race of memory */
#include <cilk/cilk.h>
#include <stdio.h>
static void say(int i) { char own[20]; snprintf(own, sizeof own, "child %d", i); printf("%s %d\n", own, i); fputs(own, stdout); putchar('\n'); }
int main(void) {
  for (int i = 0; i < 4; i++)
    cilk_spawn say(i);
  puts("spawner");
  cilk_sync;
  return 0;
}
