/* expect: race; levels: all; structures are read and written where one is assigned to another */
#include <cilk/cilk.h>
struct nine { int at[9]; } all, other;
static void child(struct nine *to, struct nine *from) { *to = *from; } /* race: a b */
int main(void) {
  cilk_spawn child(&all, &other); /* spawn: a b */
  all.at[8] = 1;   /* race: a */
  other.at[0] = 1; /* race: b */
  cilk_sync;
  return all.at[8] - 1;
}
