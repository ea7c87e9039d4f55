// expect: clean; levels: all; children of a function that an exception leaves end before its locals do, as at a return
#include <cilk/cilk.h>
#include <vector>
int last, caught;
struct Box { int x = 1; ~Box() { last = x; } };
static void change(Box *box) { box->x = 2; }
static void fill(std::vector<int> &v) { for (int &x : v) x = 1; }
static void fail() { throw 5; }
static int fails() { throw 5; }
static void take(Box *box, int) { box->x = 3; }
static void in_itself() { Box box; cilk_spawn change(&box); throw 5; }
static void in_a_call() { std::vector<int> v(9); cilk_spawn fill(v); fail(); }
static void behind_a_loop() {
  Box box[3];
  for (int i = 0; i < 3; i++) cilk_spawn change(&box[i]);
  fail();
}
static void in_a_block() {
  Box outer;
  cilk_spawn change(&outer);
  {
    Box inner;
    cilk_spawn change(&inner);
    Box later;
    fail();
  }
}
static void in_a_scope() {
  Box outer;
  cilk_spawn change(&outer);
  cilk_scope {
    Box inner;
    cilk_spawn change(&inner);
    cilk_scope { Box innermost; cilk_spawn change(&innermost); fail(); }
  }
}
static void in_a_child() { Box box; cilk_spawn change(&box); cilk_spawn fail(); }
static void in_an_argument() { Box box; cilk_spawn change(&box); cilk_spawn take(&box, fails()); }
static void in_a_round() {
  Box box;
  cilk_spawn change(&box);
  cilk_for (int i = 0; i < 2; i++) { Box own; cilk_spawn change(&own); fail(); }
}
static void in_a_spawned_block() {
  Box box;
  cilk_spawn { Box own; cilk_spawn change(&own); fail(); }
  change(&box);
}
static void behind_a_result() { Box box; int x = cilk_spawn [&] { change(&box); return 1; }(); fail(); last = x; }
static void again() {
  Box box;
  cilk_spawn change(&box);
  try { fail(); } catch (int) { throw; }
}
static void past_a_catch() { try { Box box; cilk_spawn change(&box); fail(); } catch (double) { last = 7; } }
struct Tries { ~Tries() { Box box; cilk_spawn change(&box); cilk_sync; try { fail(); } catch (int k) { caught += k; } } };
static void with_destructors() { Tries before; Box box; cilk_spawn change(&box); Tries behind; fail(); }
static void in_the_library() { std::vector<int> v(3); cilk_spawn fill(v); v.at(100) = 1; }
int main() {
  void (*all[])() = {in_itself, in_a_call, behind_a_loop, in_a_block, in_a_scope, in_a_child, in_an_argument, in_a_round, in_a_spawned_block,
                     behind_a_result, again, past_a_catch, with_destructors, in_the_library};
  for (auto function : all)
    try { function(); } catch (int k) { caught += k; } catch (const std::exception &) { caught++; }
  return caught - 76;
}
