/* expect: race; blocks of strdup and getline and the like live and die as those of malloc */
#include <cilk/cilk.h>
#include <stdlib.h>
#include <string.h>
static void set(char *s) { s[1] = 'x'; } /* race: a */
static void child(char *s) { char *own = strdup(s); own[1] = 'y'; free(own); } /* race: b */
int main(void) {
  char *s = strdup("abc"), *t = strndup("abcdef", 4);
  cilk_spawn set(s);   /* spawn: a */
  int got = s[1];      /* race: a */
  cilk_spawn child(t); /* spawn: b */
  cilk_spawn child("abc");
  t[2] = 'z';          /* race: b */
  cilk_sync;
  free(s);
  free(t);
  return got == 0;
}
