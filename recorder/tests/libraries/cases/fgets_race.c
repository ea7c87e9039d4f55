/* expect: race; fgets writes a NUL behind what came */
#include <cilk/cilk.h>
#include <stdio.h>
static char a[32];
static void get(FILE *file) { fgets(a, 32, file); } /* race: a */
int main(void) {
  FILE *file = tmpfile();
  fputs("one\ntwo\n", file);
  rewind(file);
  cilk_spawn get(file);
  a[4] = 0; /* race: a */
  cilk_sync;
  return fclose(file);
}
