#include "total.h"
#include <math.h>
#include <stdio.h>
static double numbers[SIZE];
int main(void) {
  for (int i = 0; i < SIZE; i++)
    numbers[i] = sqrt(i);
  scale(numbers, SIZE, 2);
  printf("%.3f\n", sum(numbers, SIZE));
  return 0;
}
