#include "bins.h"
#include <cilk/cilk.h>
#include <stdio.h>

static unsigned char bytes[400];

int main(void) {
  long bins[8] = {0}, sum = 0;
  cilk_for (int i = 0; i < 400; i++)
    bytes[i] = (unsigned char)(i * 7);
  count_into(bins, bytes, 400);
  cilk_scope {
    for (int i = 0; i < 8; i++)
      sum += bins[i];
  }
  printf("%ld\n", sum);
  return sum != 400;
}
