/* Sorts numbers by quarters, which are sorted and merged in parallel.   mergesort [COUNT] */
#include <cilk/cilk.h>
#include <stdio.h>
#include <stdlib.h>

#ifndef LEAF
#define LEAF 512 /* so few numbers are sorted or merged by one strand */
#endif

static void insertion_sort(int *numbers, long count) {
  for (long i = 1; i < count; i++) {
    int number = numbers[i];
    long hole = i;
    for (; hole > 0 && numbers[hole - 1] > number; hole--)
      numbers[hole] = numbers[hole - 1]; /* race: a */
    numbers[hole] = number;              /* race: a */
  }
}

static void serial_sort(int *numbers, long count) {
  while (count > 20) {
    int pivot = numbers[count / 2];
    long low = 0, high = count - 1;
    while (low <= high) {
      while (numbers[low] < pivot)
        low++;
      while (numbers[high] > pivot)
        high--;
      if (low <= high) {
        int number = numbers[low];
        numbers[low++] = numbers[high]; /* race: a */
        numbers[high--] = number;       /* race: a */
      }
    }
    serial_sort(numbers, high + 1);
    numbers += low;
    count -= low;
  }
  insertion_sort(numbers, count);
}

static void serial_merge(const int *left, long lefts, const int *right, long rights, int *merged) {
  while (lefts > 0 && rights > 0)
    if (*left <= *right) { /* race: a */
      *merged++ = *left++; /* race: a a */
      lefts--;
    } else {
      *merged++ = *right++; /* race: a a */
      rights--;
    }
  for (; lefts > 0; lefts--)
    *merged++ = *left++; /* race: a a */
  for (; rights > 0; rights--)
    *merged++ = *right++; /* race: a a */
}

/* How many of the sorted numbers are smaller than this one. */
static long smaller(const int *numbers, long count, int than) {
  long low = 0;
  while (low < count) {
    long middle = (low + count) / 2;
    if (numbers[middle] < than) /* race: a */
      low = middle + 1;
    else
      count = middle;
  }
  return low;
}

static void merge(const int *left, long lefts, const int *right, long rights, int *merged) {
  if (lefts < rights) {
    merge(right, rights, left, lefts, merged);
    return;
  }
  if (lefts + rights <= LEAF) {
    serial_merge(left, lefts, right, rights, merged);
    return;
  }
  long half = lefts / 2, below = smaller(right, rights, left[half]);     /* race: a */
  cilk_spawn merge(left, half, right, below, merged);                   /* spawn: a */
  merge(left + half, lefts - half, right + below, rights - below, merged + half + below);
  cilk_sync;
}

static void merge_sort(int *numbers, int *scratch, long count) {
  if (count <= LEAF) {
    serial_sort(numbers, count);
    return;
  }
  long quarter = count / 4, rest = count - 3 * quarter;
  int *second = numbers + quarter, *third = second + quarter, *fourth = third + quarter;
  cilk_spawn merge_sort(numbers, scratch, quarter);              /* spawn: a */
  cilk_spawn merge_sort(second, scratch + quarter, quarter);     /* spawn: a */
  cilk_spawn merge_sort(third, scratch + 2 * quarter, quarter);  /* spawn: a */
  merge_sort(fourth, scratch + 3 * quarter, rest);
#ifndef RACE /* else: a forgotten sync */
  cilk_sync;
#endif
  cilk_spawn merge(numbers, quarter, second, quarter, scratch);  /* spawn: a */
  merge(third, quarter, fourth, rest, scratch + 2 * quarter);
  cilk_sync;
  merge(scratch, 2 * quarter, scratch + 2 * quarter, quarter + rest, numbers);
}

int main(int argc, char **argv) {
  long count = argc > 1 ? atol(argv[1]) : 4000, sorted = 1;
  int *numbers = malloc(count * sizeof *numbers), *scratch = malloc(count * sizeof *scratch);
  unsigned seed = 1, sum = 0;
  for (long i = 0; i < count; i++) {
    seed = seed * 1664525 + 1013904223;
    numbers[i] = seed >> 8;
  }
  merge_sort(numbers, scratch, count);
  for (long i = 0; i < count; i++) {
    sum = sum * 31 + numbers[i];
    if (i > 0 && numbers[i - 1] > numbers[i])
      sorted = 0;
  }
  printf("mergesort(%ld) %s %u\n", count, sorted ? "sorted" : "NOT SORTED", sum);
  return !sorted;
}
