/* expect: race; unseen: the program ended inside a spawned function; the program ends inside of a child: what was done until then is judged */
#include <cilk/cilk.h>
#include <stdlib.h>
int x;
static void one(void) { x = 1; } /* race: a */
static void two(void) { x = 2; exit(0); } /* race: a */
int main(void) {
  cilk_spawn one(); /* spawn: a */
  cilk_spawn two();
  cilk_sync;
  return 1;
}
