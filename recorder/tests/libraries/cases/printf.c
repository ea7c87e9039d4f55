/* expect: clean; streams are locked, so what is printed at once does not race; what a format does not read does not race either */
#include <cilk/cilk.h>
#include <stdio.h>
static char a[] = "abcdef", room[2][16];
static void print(int i) {
  printf("%.*s\n", 3, a);
  fprintf(stderr, "%d\n", i);
  puts("x");
  snprintf(room[i], 8, "%d-%.3s-%s", i, a, "much too long");
}
int main(void) {
  cilk_spawn print(0);
  cilk_spawn print(1);
  a[3] = 'D';
  room[0][8] = room[1][8] = 1;
  cilk_sync;
  puts(room[0]);
  puts(room[1]);
  return 0;
}
