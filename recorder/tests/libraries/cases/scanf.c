/* expect: clean; sscanf writes what it assigns, and no more */
#include <cilk/cilk.h>
#include <stdio.h>
#include <string.h>
static int a, b = 7, c = 8;
static char word[8];
static void scan(void) { sscanf("12 abc x", "%d %7s %d %d", &a, word, &b, &c); }
int main(void) {
  cilk_spawn scan();
  b++;
  c++;
  word[4] = 'x';
  cilk_sync;
  return a != 12 || b != 8 || c != 9 || strcmp(word, "abc");
}
