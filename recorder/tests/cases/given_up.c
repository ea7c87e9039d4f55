/* expect: race; what a function leaves nothing of is given up, and its numbers are used again */
#include <cilk/cilk.h>

#define COUNT 12

static void nothing(int *at) { (void)at; }
static void set(int *at) { *at = 1; } /* race: a b c */

static void read_all(int *at) {
  for (int i = 0; i < COUNT; i++)
    if (at[i] != 1) /* race: a */
      nothing(at);
}
static void change_all(int *at) {
  for (int i = 0; i < COUNT; i++)
    at[i] = 0; /* race: b */
}

/* Each element has a history of its own, and the last strand goes on in the caller. */
static void inner(void) {
  int own[COUNT];
  for (int i = 0; i < COUNT; i++)
    cilk_spawn set(own + i);
  cilk_sync;
  read_all(own);
  change_all(own);
}

static void outer(void) {
  int more[COUNT], shared[COUNT];
  for (int i = 0; i < COUNT; i++) {
    cilk_spawn set(more + i);   /* spawn: a */
    cilk_spawn set(shared + i); /* spawn: a b */
  }
  inner();
  inner();
  read_all(more);
  read_all(shared);
  change_all(shared);
  cilk_sync;
}

/* A child that leaves nothing stands behind one that does. */
static void behind(void) {
  int shared[1];
  cilk_spawn set(shared); /* spawn: c */
  shared[0] = 2;          /* race: c */
  cilk_spawn nothing(shared);
  cilk_sync;
}

int main(void) {
  outer();
  behind();
  return 0;
}
