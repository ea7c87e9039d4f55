/* The n-th Fibonacci number by its definition: a spawn a call and nothing else.   fib [N] */
#include <cilk/cilk.h>
#include <stdio.h>
#include <stdlib.h>

static long fib(int n) {
  if (n < 2)
    return n;
  long x = cilk_spawn fib(n - 1); /* race: a, spawn: a */
  long y = fib(n - 2);
#ifndef RACE /* else: a forgotten sync */
  cilk_sync;
#endif
  return x + y; /* race: a */
}

int main(int argc, char **argv) {
  int n = argc > 1 ? atoi(argv[1]) : 12;
  printf("fib(%d) = %ld\n", n, fib(n));
  return 0;
}
