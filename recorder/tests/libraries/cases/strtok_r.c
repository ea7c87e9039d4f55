/* expect: clean; strtok_r keeps its state where it is told */
#include <cilk/cilk.h>
#include <string.h>
static char a[] = "a bc", b[] = "c d e";
static int words(char *s) {
  char *rest;
  int n = 0;
  for (char *word = strtok_r(s, " ", &rest); word; word = strtok_r(NULL, " ", &rest)) n++;
  return n;
}
int main(void) {
  int n = cilk_spawn words(a);
  int m = words(b);
  cilk_sync;
  return n != 2 || m != 3;
}
