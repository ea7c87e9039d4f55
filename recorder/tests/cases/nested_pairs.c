/* expect: race; strands that part at one spawn are told apart by how far down they lie: only some of them race */
#include <cilk/cilk.h>
static int cell[8], sum;
static void deep(int *at, int depth) {
  if (depth == 0) {
    *at += 1; /* race: a; in a child that is synced with, and in one that is not */
    return;
  }
  cilk_spawn deep(at, depth - 1);
  cilk_sync;
  sum += depth; /* race: b b */
}
static void look(const int *at) {
  sum += *at; /* race: a b b */
}
int main(void) {
  cilk_spawn deep(&cell[0], 1); /* spawn: a b */
  look(&cell[0]);
  cilk_sync;
  cilk_spawn deep(&cell[1], 2);
  cilk_sync;
  look(&cell[1]);
  return 0;
}
