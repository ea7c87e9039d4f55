/* expect: clean; levels: all; the spawner reads the callee, the arguments and where the result goes, and changes them behind the spawn */
#include <cilk/cilk.h>
struct large { long numbers[6]; };
struct node { int value; struct node *next; };
static int n = 1, index_ = 1, results[4];
static struct large many = {{1, 2, 3}};
static struct node second = {0, 0}, first = {0, &second}, *at = &first;
static int one(int k) { return k; }
static int two(int k) { return 2 * k; }
static long sum(struct large it) { it.numbers[0]++; return it.numbers[0] + it.numbers[1]; }
static int (*callee)(int) = one;
static int (*table[2])(int) = {one, two};
static long total;
int main(void) {
  cilk_spawn one(n);
  n = 2;
  results[0] = cilk_spawn callee(n);
  callee = two;
  n++;
  results[index_] = cilk_spawn table[index_](n);
  index_ = 2;
  table[1] = one;
  at->value = cilk_spawn one(5);
  at = at->next;
  total = cilk_spawn sum(many);
  many.numbers[0] = 7;
  cilk_spawn sum(many);
  many.numbers[1] = 9;
  cilk_sync;
  return results[0] + results[1] + first.value + (int)total - (2 + 6 + 5 + 4);
}
