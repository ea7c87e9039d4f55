// expect: clean; levels: all; a child reads a variable whose block has ended in the serial order, when one of another block begins
#include <cilk/cilk.h>
#include <stdlib.h>
static long sum;
static void set(char *p) { p[0] = 1; }
int main() {
  {
    char *first = (char *)calloc(1, 3);
    cilk_spawn [&] { first[0]++; }();
    sum += 2;
  }
  cilk_for (int k = 0; k < 2; k++) {
    char own = 0;
    set(&own);
  }
  return sum != 2;
}
