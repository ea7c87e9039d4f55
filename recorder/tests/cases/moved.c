/* expect: race; locations alike but for one thing are not left out for one another */
/* Each function stands on one line, so that neither lines nor spawns tell apart what is ordered and what is not; what is ordered comes first. */
#include <cilk/cilk.h>

static void nothing(int *at) { (void)at; }

/* called, or spawned: the called one accesses behind its first spawn, the spawned one before it */
static void called(int *p, int way, int n) { int x; if (n == 0) { for (int i = 0; i < 2; i++) { if (i == way) *p = 1; if (i == 0) { cilk_spawn nothing(&x); } } cilk_sync; } else { cilk_spawn nothing(&x); cilk_sync; x = 0; if (way) called(&x, way, 0); else { cilk_spawn called(&x, way, 0); } x = 2; cilk_sync; } } /* race: a a, spawn: a */

/* before the spawn and in the child, or in the child and behind the spawn */
static void placed(int way) { int x[1]; cilk_spawn nothing(x); cilk_sync; for (int i = 0; i < 3; i++) { if (i == 1) { cilk_spawn { x[0] = 1; } } else if (i == way) x[0] = 1; } cilk_sync; } /* race: b b, spawn: b */

/* a sync between, or none */
static void synced(int way) { int x[1] = {0}; cilk_spawn { x[0] = 1; } if (way == 0) { cilk_sync; } x[0] = 1; cilk_sync; } /* race: c c, spawn: c */

/* read, or written */
static void read_or_written(int way) { int x[1] = {0}, y = 0; cilk_spawn { if (way == 0) y = x[0]; else x[0] = 1; } if (x[0]) nothing(&y); cilk_sync; } /* race: d d, spawn: d */

int main(void) {
  cilk_spawn nothing(0); /* so that what is below is looked at */
  for (int way = 0; way < 2; way++) {
    called(0, 1 - way, 1);
    placed(2 * way);
    synced(way);
    read_or_written(way);
  }
  cilk_sync;
  return 0;
}
