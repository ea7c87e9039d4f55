/* expect: race; levels: all; where a result goes: what unary operators, casts and members make of it */
#include <cilk/cilk.h>
#include <complex.h>
struct pair { int *to; struct pair *next; int bits : 5; };
static int get(int k) { return k; }
int main(void) {
  int a[6] = {0}, seen;
  double complex z = 0;
  struct pair one = {a, 0, 0}, two = {a + 4, &one, 0}, *p = &two, **q = &p;
  *one.to++ = cilk_spawn get(1);
  *one.to = cilk_spawn get(2);
  *p->to = cilk_spawn get(3);
  *((int *)two.to + 1) = cilk_spawn get(4);
  (*q)->next->bits = cilk_spawn get(5);
  one.to = a + 2, two.to = a;
  (&two)->bits = cilk_spawn get(6);
  __real__ z = cilk_spawn get(7);
  p = p->next;
  cilk_sync;
  (**q).to[1] = cilk_spawn get(8); /* race: a, spawn: a */
  seen = a[3]; /* race: a */
  __imag__ z += cilk_spawn get(9); /* race: b, spawn: b */
  z = 10; /* race: b */
  cilk_sync;
  return a[0] + a[1] + a[3] + a[4] + a[5] + one.bits + two.bits + seen + (int)creal(z) - (1 + 2 + 8 + 3 + 4 + 5 + 6 + 8 + 10);
}
