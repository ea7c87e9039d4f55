/* expect: race; strtok has one state for all */
#include <cilk/cilk.h>
#include <string.h>
static char a[] = "a b", b[] = "c d";
static void words(char *s) {
  for (char *word = strtok(s, " "); word; word = strtok(NULL, " ")) {} /* race: a a */
}
int main(void) {
  cilk_spawn words(a);
  words(b);
  cilk_sync;
  return 0;
}
