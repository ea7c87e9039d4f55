/* expect: race; levels: all; a node is freed while its left part may be added up; the line of free is named */
#include <cilk/cilk.h>
#include <stdlib.h>
struct node { int value; struct node *next; };
static int sum(struct node *node) { return node ? node->value + sum(node->next) : 0; } /* race: a */
int main(void) {
  struct node *all = NULL;
  for (int i = 0; i < 5; i++) {
    struct node *made = malloc(sizeof *made);
    made->value = i;
    made->next = all;
    all = made;
  }
  int got = cilk_spawn sum(all); /* spawn: a */
  while (all) {
    struct node *next = all->next;
    free(all); /* race: a */
    all = next;
  }
  cilk_sync;
  return got - 10;
}
