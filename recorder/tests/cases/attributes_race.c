/* expect: race; levels: all; whatever its attributes say, a function's accesses are told */
#include <cilk/cilk.h>
static int a, b, c, d, e, unused;
__attribute__((no_sanitize("thread", "address", "coverage"))) static void silent(void) { a = 1; } /* race: a */
__attribute__((pure, noinline)) static int pure(int k) { return b + k; } /* race: b */
__attribute__((const, noinline)) static int constant(int k) { return k + c; } /* race: c */
__attribute__((target_clones("avx2", "default"))) int cloned(int k) { return k + d; } /* race: d */
__attribute__((always_inline)) inline static void inlined(int k) { e = k; } /* race: e */
static void child(void) {
  silent();
  unused = pure(1) + pure(1);
  unused += constant(2) + constant(2);
  unused += cloned(3);
  inlined(4);
}
int main(void) {
  cilk_spawn child(); /* spawn: a b c d e */
  a = 2; /* race: a */
  b = 2; /* race: b */
  c = 2; /* race: c */
  d = 2; /* race: d */
  e = 2; /* race: e */
  cilk_sync;
  return a + b + c + d + e - 10;
}
