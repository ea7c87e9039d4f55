#include <stdio.h>

double smooth(int height, int width);

int main(void) {
  double sum = smooth(6, 20);
  printf("%g\n", sum);
  return sum != 120;
}
