/* expect: race; a local accumulator in a cilk_for */
#include <cilk/cilk.h>
int a[20];
int main(void) {
  int sum = 0;
  cilk_for (int i = 0; i < 20; i++) /* spawn: a */
    sum += a[i]; /* race: a a */
  return sum;
}
