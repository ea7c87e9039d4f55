/* expect: race; levels: all; a structure that a call returns into memory is written there */
#include <cilk/cilk.h>
struct nine { int at[9]; } all;
static struct nine make(int i) { struct nine made = {{i}}; return made; }
static void child(int i) { all = make(i); } /* race: a */
int main(void) {
  cilk_spawn child(1); /* spawn: a */
  int first = all.at[0]; /* race: a */
  cilk_sync;
  return first - 1;
}
