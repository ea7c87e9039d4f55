/* expect: race; levels: all; every type of every size */
#include <cilk/cilk.h>
#include <complex.h>
typedef float v8 __attribute__((vector_size(32)));
typedef int v3 __attribute__((ext_vector_type(3)));
static long double a; static __int128 b; static v8 c; static double complex d; static _Bool e; static v3 f; static float g; static short h;
static void child(void) {
  a = 1;      /* race: a */
  b = 1;      /* race: b */
  c += 1;     /* race: c */
  d *= 2;     /* race: d */
  e = !e;     /* race: e */
  f += 1;     /* race: f */
  g += 1;     /* race: g */
  h++;        /* race: h */
}
int main(void) {
  cilk_spawn child(); /* spawn: a b c d e f g h */
  ((char *)&a)[9] = 0;  /* race: a */
  ((char *)&b)[15] = 0; /* race: b */
  ((char *)&c)[31] = 0; /* race: c */
  ((char *)&d)[15] = 0; /* race: d */
  e = 1;                /* race: e */
  ((int *)&f)[2] = 0;   /* race: f */
  g = 0;                /* race: g */
  h = 2;                /* race: h */
  cilk_sync;
  return 0;
}
