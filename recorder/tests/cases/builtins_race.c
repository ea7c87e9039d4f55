/* expect: race; levels: all; builtins of a constant size, which a compiler makes instructions of */
#include <cilk/cilk.h>
static char all[64], copy[64], text[16];
static struct { long at[4]; } one, other;
static void fill(int k) { __builtin_memset(all, k, sizeof all); } /* race: a a */
static void take(void) { __builtin_memcpy(copy, copy + 32, 8); } /* race: b */
static void say(void) { __builtin_strcpy(text, "four"); } /* race: c */
static void move(void) { __builtin_memmove(&one, &other, sizeof one); } /* race: d */
int main(void) {
  cilk_spawn fill(1); /* spawn: a */
  fill(2);
  cilk_sync;
  cilk_spawn take(); /* spawn: b */
  copy[39] = 1;      /* race: b */
  cilk_sync;
  cilk_spawn say(); /* spawn: c */
  text[4] = 0;      /* race: c */
  cilk_sync;
  cilk_spawn move(); /* spawn: d */
  other.at[3] = 1;   /* race: d */
  cilk_sync;
  return all[3] + copy[39] + text[0] - 'f' - 3 + one.at[3];
}
