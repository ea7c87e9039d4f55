/* expect: clean; unseen: crypt; flags: -lcrypt; plain: no; a library that was not compiled by the wrapper and is not known */
#include <cilk/cilk.h>
#include <crypt.h>
static int child(void) { return crypt("word", "ab") == 0; }
int main(void) {
  cilk_spawn child();
  cilk_sync;
  return 0;
}
