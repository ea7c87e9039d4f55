// expect: race; levels: all; a callee that an exception leaves ends beside its caller's children; so do the locals of a try whose catch is in the function
#include <cilk/cilk.h>
int x, y, z, last;
struct Ends { ~Ends() { x = 1; } }; /* race: a */
struct Box { int x = 1; ~Box() { last = x; } }; /* race: b */
struct Sets { ~Sets() { cilk_spawn [] { z = 1; }(); z = 2; } }; /* race: d d */
static void set() { x = 2; } /* race: a */
static void put() { y = 2; } /* race: c */
static void change(Box *box) { box->x = 2; } /* race: b */
static void fail() { throw 5; }
static void callee() { Ends ends; fail(); }
static void caller() { cilk_spawn set(); /* spawn: a */ callee(); }
static void tries() {
  try { Box box; cilk_spawn change(&box); fail(); } catch (int) { } /* spawn: b */
}
static void inner() { Sets sets; cilk_spawn set(); fail(); }
static void outer() {
  cilk_spawn put(); /* spawn: c */
  try { inner(); } catch (int k) { y = k; } /* race: c */
}
int main() {
  try { caller(); } catch (int) { }
  tries();
  outer();
  return x + y + last + z - 11;
}
