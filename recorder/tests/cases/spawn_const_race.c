/* expect: race; levels: all; a variable that is declared by a spawn is written by the child, whatever it is made of */
#include <cilk/cilk.h>
static long fib(int n) {
  if (n < 2) return n;
  const long x = cilk_spawn fib(n - 1); /* race: a, spawn: a */
  long y = fib(n - 2);
  return x + y; /* race: a */
}
int main(void) { return (int)fib(6) - 8; }
