/* Wrappers of libc: sorting and searching. See libc.h. The program's comparison functions are compiled and seen, and run in the same
   strand; what libc itself does with the elements is told here. bsearch and lfind only hand elements to them. */
#define _GNU_SOURCE
#include "libc.h"
#include <search.h>
#include <stdlib.h>

/* All elements may be read and moved, where there are two or more. */
static void tell_sorting(void *elements, size_t count, size_t bytes, uintptr_t place) {
  if (count < 2) return;
  tell(elements, count * bytes, ACCESS_READ, place);
  tell(elements, count * bytes, ACCESS_WRITE, place);
}
WRAPPER(void, qsort, void *elements, size_t count, size_t bytes, int compare(const void *, const void *)) {
  tell_sorting(elements, count, bytes, PLACE);
  qsort(elements, count, bytes, compare);
}
WRAPPER(void, qsort_r, void *elements, size_t count, size_t bytes, int compare(const void *, const void *, void *), void *argument) {
  tell_sorting(elements, count, bytes, PLACE);
  qsort_r(elements, count, bytes, compare, argument);
}
WRAPPER(void *, bsearch, const void *key, const void *elements, size_t count, size_t bytes, int compare(const void *, const void *)) {
  return bsearch(key, elements, count, bytes, compare);
}
WRAPPER(void *, lfind, const void *key, const void *elements, size_t *count, size_t bytes, int compare(const void *, const void *)) {
  READ(count, sizeof *count);
  return lfind(key, elements, count, bytes, compare);
}
WRAPPER(void *, lsearch, const void *key, void *elements, size_t *count, size_t bytes, int compare(const void *, const void *)) {
  uintptr_t place = PLACE;
  READ(count, sizeof *count);
  size_t before = *count;
  void *found = lsearch(key, elements, count, bytes, compare);
  if (*count == before) return found;
  tell(key, bytes, ACCESS_READ, place);
  tell(found, bytes, ACCESS_WRITE, place);
  tell(count, sizeof *count, ACCESS_WRITE, place);
  return found;
}
