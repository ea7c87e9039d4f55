/* expect: clean; levels: all; what stands in strings, and structures by value within calls, are no matter of the recorder's */
#include <cilk/cilk.h>
#include <stdio.h>
typedef struct { double x, y; } point;
static point add(point a, point b) { return (point){a.x + b.x, a.y + b.y}; }
static point scale(point v, double t) { return (point){v.x * t, v.y * t}; }
static void say(int k) { printf("cilk_spawn say(%d), cilk_sync; { [ ( \"\n", k); }
int main(void) {
  point p = {1, 2}, *at = &p, v = {3, 4};
  fprintf(stderr, "Hello, world\n");
  cilk_spawn say(1);
  p = add(*at, scale(v, 2));
  cilk_sync;
  printf("%g, %g\n", p.x, p.y);
  return p.x != 7;
}
