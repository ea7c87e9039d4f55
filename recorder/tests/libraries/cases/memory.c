/* expect: clean; each function of memory and strings touches what it says, and not a byte beside it */
#include <cilk/cilk.h>
#include <string.h>
static char a[64], b[64];
static void left(void) {
  memset(a, 'x', 16);
  memcpy(a, "seven b", 7);
  strncpy(a + 8, "ab", 8);
  a[7] = 0;
  memmove(a + 1, a, 6);
  strcpy(a, "ab");
  strcat(a, "cd");
  strncat(a, "efgh", 3);
}
static void right(void) {
  memset(a + 16, 'y', 16);
  strncpy(a + 16, "abcdefgh", 4);
  strcpy(a + 24, "seven b");
}
static int compare(void) { return strcmp(b, "abX") + strncmp(b, "abc", 3) + memcmp(b, "abc", 3) + (memchr(b, 'b', 64) == NULL) + (strchr(b, 'c') == NULL); }
int main(void) {
  cilk_spawn left();
  right();
  cilk_sync;
  memcpy(b, "abcdef", 7);
  int r = cilk_spawn compare();
  b[3] = 'z';
  cilk_sync;
  return strcmp(a, "abcdefg") || r <= 0;
}
