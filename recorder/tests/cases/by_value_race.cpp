// expect: race; levels: all; by-value arguments of operators and of nested calls, results
#include <cilk/cilk.h>
struct Vector {
  double x, y, z;
  friend Vector operator+(Vector a, Vector b) { return {a.x + b.x, a.y + b.y, a.z + b.z}; }
};
struct Small { int a, b; };
static Vector all, sum;
static Small small;
static Vector scaled(Vector it, double by) { return {it.x * by, it.y * by, it.z * by}; }
static int of(Small it) { return it.a; }
static void add() { sum = all + all; } // race: a
static void nested() { sum = all + scaled(all, 2); } // race: b
static void take() { sum.x = of(small); } // race: c
int main() {
  cilk_spawn add(); // spawn: a
  all.z = 1;        // race: a
  cilk_sync;
  cilk_spawn nested(); // spawn: b
  all.y = 1;           // race: b
  cilk_sync;
  cilk_spawn take(); // spawn: c
  small.b = 1;       // race: c
  cilk_sync;
  return (int)(sum.x + sum.y);
}
