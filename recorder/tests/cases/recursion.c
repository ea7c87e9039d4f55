/* expect: clean; a tree on the heap is made, added up and freed by spawns */
#include <cilk/cilk.h>
#include <stdlib.h>
struct tree { int value; struct tree *left, *right; };
static struct tree *make(int low, int high) {
  if (low >= high) return NULL;
  int middle = (low + high) / 2;
  struct tree *made = malloc(sizeof *made);
  made->value = middle;
  made->left = cilk_spawn make(low, middle);
  made->right = make(middle + 1, high);
  cilk_sync;
  return made;
}
static long total(const struct tree *tree) {
  if (!tree) return 0;
  long left = cilk_spawn total(tree->left);
  long right = total(tree->right);
  cilk_sync;
  return left + right + tree->value;
}
static void unmake(struct tree *tree) {
  if (!tree) return;
  cilk_spawn unmake(tree->left);
  unmake(tree->right);
  cilk_sync;
  free(tree);
}
int main(void) {
  struct tree *tree = make(0, 100);
  long sum = total(tree);
  unmake(tree);
  return sum - 4950;
}
