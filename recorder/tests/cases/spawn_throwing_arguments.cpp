// expect: clean; levels: all; where an argument throws there is no child
#include <cilk/cilk.h>
static int x, caught;
static int thrower(int k) { x++; if (k) throw k; return k; }
static int take(int k) { return k; }
struct value { int n; value(int k) : n(thrower(k)) {} ~value() { x++; } };
static int look(const value &it, int k) { return it.n + k; }
static int attempt(int k) {
  try {
    int r = cilk_spawn take(thrower(k));
    x++;
    cilk_sync;
    return r;
  } catch (int it) {
    caught += it;
    x++;
  }
  return -1;
}
static int other(int k) {
  int r = 0;
  try { r = cilk_spawn look(value(0), thrower(k)); }
  catch (int it) { caught += it; }
  x++;
  return r;
}
int main() { return attempt(0) + attempt(3) + other(4) + caught - 6; }
