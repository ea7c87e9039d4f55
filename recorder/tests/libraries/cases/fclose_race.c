/* expect: race; a stream is closed while it is used; two uses do not race */
#include <cilk/cilk.h>
#include <stdio.h>
static void put(FILE *file) { fputs("x", file); } /* race: a */
int main(void) {
  FILE *file = tmpfile();
  cilk_spawn put(file);
  cilk_spawn put(file);
  fclose(file); /* race: a */
  cilk_sync;
  return 0;
}
