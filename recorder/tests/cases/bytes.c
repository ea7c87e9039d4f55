/* expect: clean; neighbouring bytes and halves of a word */
#include <cilk/cilk.h>
char c[8];
short s[4];
struct __attribute__((packed)) { char a; int b; char d; } p;
static void set(int i) { c[i] = i; s[i] = i; if (i == 1) p.b = 2; }
int main(void) {
  p.a = 1;
  for (int i = 0; i < 4; i++)
    cilk_spawn set(i);
  p.a = 3;
  p.d = 4;
  cilk_sync;
  return c[3] + s[2] - 5;
}
