/* Quicksort: the part below the pivot is spawned.   quicksort [COUNT] */
#include <cilk/cilk.h>
#include <stdio.h>
#include <stdlib.h>

#ifndef LEAF
#define LEAF 16
#endif

#ifdef RACE
static long leaves; /* a counter that all strands share */
#endif

static void swap(int *a, int *b) {
  int number = *a;
  *a = *b;
  *b = number;
}

/* The last is the pivot; gives where it comes to. */
static int *partition(int *first, int *last) {
  int *pivot = first;
  for (int *at = first; at < last; at++)
    if (*at < *last)
      swap(at, pivot++);
  swap(pivot, last);
  return pivot;
}

static void quicksort(int *first, int *last) {
  if (last - first < LEAF) {
#ifdef RACE
    leaves++; /* race: a a */
#endif
    for (int *sorted = first + 1; sorted <= last; sorted++)
      for (int *at = sorted; at > first && at[-1] > *at; at--)
        swap(at, at - 1);
    return;
  }
  swap(first + (last - first) / 2, last);
  int *pivot = partition(first, last);
  cilk_spawn quicksort(first, pivot - 1); /* spawn: a */
  quicksort(pivot + 1, last);
  cilk_sync;
}

int main(int argc, char **argv) {
  int count = argc > 1 ? atoi(argv[1]) : 1000, sorted = 1;
  int *numbers = malloc(count * sizeof *numbers);
  unsigned seed = 1, sum = 0;
  for (int i = 0; i < count; i++) {
    seed = seed * 1664525 + 1013904223;
    numbers[i] = seed >> 8;
  }
  quicksort(numbers, numbers + count - 1);
  for (int i = 0; i < count; i++) {
    sum = sum * 31 + numbers[i];
    if (i > 0 && numbers[i - 1] > numbers[i])
      sorted = 0;
  }
  printf("quicksort(%d) %s %u\n", count, sorted ? "sorted" : "NOT SORTED", sum);
  return !sorted;
}
