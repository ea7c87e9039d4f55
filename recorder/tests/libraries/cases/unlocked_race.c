/* expect: race; a stream without its lock */
#define _GNU_SOURCE
#include <cilk/cilk.h>
#include <stdio.h>
static void put(FILE *file) { fputs_unlocked("x", file); } /* race: a a */
int main(void) {
  FILE *file = tmpfile();
  cilk_spawn put(file);
  put(file);
  cilk_sync;
  return fclose(file);
}
