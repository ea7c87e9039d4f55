/* expect: clean; where a spawn may stand */
#include <cilk/cilk.h>
typedef struct { int x; struct { int y[3]; } in; } S;
int g[20];
static int f(int i) { return i; }
static int *h(int *p) { return p; }
static void v(void) {}
static int (*tab[2])(int) = {f, f};
int main(int argc, char **argv) {
  S s, *p = &s; int i = 0, *q = g, *r; int (*fp)(int) = f;
  (void)argv;
  if (argc) cilk_spawn v(); else cilk_spawn f(1);
  for (i = 0; i < 3; i++) g[i] = cilk_spawn f(i);
  switch (argc) { case 1: cilk_spawn v(); break; default: s.x = cilk_spawn f(2); }
  do p->in.y[argc % 3] = cilk_spawn tab[argc % 2](3); while (0);
  again: *(q + 9) = cilk_spawn (*fp)(4);
  if (argc > 100) goto again;
  r = cilk_spawn h(&g[12]);
  const int k = cilk_spawn f(argc ? (int)sizeof(S) : 5);
  unsigned long long m = cilk_spawn f(6); unsigned long long *mp = &m;
  g[15] = 1; g[15] += cilk_spawn f(7);
  cilk_sync; *q++ = 0;
  return r != &g[12] || k != sizeof(S) || *mp != 6 || g[15] != 8;
}
