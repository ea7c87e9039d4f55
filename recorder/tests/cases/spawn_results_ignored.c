/* expect: clean; levels: all; each spawn has its own memory for a result that nobody takes, and for structures by value */
#include <cilk/cilk.h>
struct large { long numbers[6]; };
static struct large make(int k) { return (struct large){{k, k + 1}}; }
static long sum(struct large it) { it.numbers[0] += it.numbers[1]; return it.numbers[0]; }
static long both(struct large one, struct large other) { one.numbers[0] += other.numbers[0]; return one.numbers[0]; }
int main(void) {
  long results[4];
  for (int i = 0; i < 4; i++) cilk_spawn make(i);
  for (int i = 0; i < 4; i++) cilk_spawn sum(make(i));
  for (int i = 0; i < 4; i++) results[i] = cilk_spawn both(make(i), make(i));
  cilk_sync;
  return (int)(results[1] + results[3]) - (2 + 6);
}
