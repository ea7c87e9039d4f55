// expect: clean; an exception of a child comes to the spawner, whose catch and end sync
#include <cilk/cilk.h>
int x, y;
static int f(int i) { if (i) throw 7; return x = 1; }
static void g() { y = 1; }
static int call() {
  int sum = 0;
  try {
    sum = cilk_spawn f(0);
    cilk_sync;
    sum += cilk_spawn f(1);
  } catch (int k) {
    cilk_sync;
    sum = k + x;
  }
  return sum;
}
static void passes() { cilk_spawn g(); throw 5; }
int main() {
  int sum = call();
  try { passes(); } catch (int k) { y = k; }
  return sum + y - 13;
}
