/* expect: race; levels: all; a structure that a plain call takes by value is read */
#include <cilk/cilk.h>
struct nine { int at[9]; } all;
int got;
static void use(struct nine by_value) { got = by_value.at[3]; }
static void child(void) { use(all); } /* race: a */
int main(void) {
  cilk_spawn child(); /* spawn: a */
  all.at[3] = 5;      /* race: a */
  cilk_sync;
  return got;
}
