/* expect: race; flags: -lm; lgamma writes signgam, which frexp, strtol and sqrt do not */
#include <cilk/cilk.h>
#include <math.h>
#include <stdlib.h>
static char text[] = "12x45";
static double numbers(int *exponent) {
  char *end;
  double x = frexp(3.0, exponent) + strtol(text, &end, 10) + sqrt(2.0);
  return x + lgamma(2.5); /* race: a a */
}
int main(void) {
  int a, b;
  double x = cilk_spawn numbers(&a);
  text[3] = '3';
  double y = numbers(&b);
  cilk_sync;
  return x != y;
}
