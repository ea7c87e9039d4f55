/* The greatest value of items that fit into a sack: each item is taken or left.   knapsack [ITEMS] */
#include <cilk/cilk.h>
#include <stdio.h>
#include <stdlib.h>

struct item {
  int value, weight;
};

#ifdef RACE
static int best; /* of all that was tried: what cannot pass it is not tried */
#endif

static int try(const struct item *item, int items, int room, int value) {
  if (room < 0)
    return -1;
  if (items == 0 || room == 0) {
#ifdef RACE
    if (value > best) /* race: a */
      best = value;   /* race: a a b */
#endif
    return value;
  }
#ifdef RACE
  if (value + (double)room * item->value / item->weight < best) /* race: b */
    return -1;
#endif
  int without = cilk_spawn try(item + 1, items - 1, room, value); /* spawn: a */
  int with = try(item + 1, items - 1, room - item->weight, value + item->value);
  cilk_sync;
  return with > without ? with : without;
}

static int by_density(const void *left, const void *right) {
  const struct item *a = left, *b = right;
  return b->value * a->weight - a->value * b->weight;
}

int main(int argc, char **argv) {
  int items = argc > 1 ? atoi(argv[1]) : 9, room = 0;
  struct item *item = malloc(items * sizeof *item);
  unsigned seed = 7;
  for (int i = 0; i < items; i++) {
    seed = seed * 1664525 + 1013904223;
    item[i].value = 10 + seed / 65536 % 90;
    seed = seed * 1664525 + 1013904223;
    item[i].weight = 5 + seed / 65536 % 45;
    room += item[i].weight;
  }
  qsort(item, items, sizeof *item, by_density);
  printf("knapsack(%d) = %d\n", items, try(item, items, room / 3, 0));
  return 0;
}
