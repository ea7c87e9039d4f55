// expect: race; levels: all; a pointer leads to a function of the library, which is seen as the child; the copies of arguments are the spawner's
#include <cilk/cilk.h>
#include <cstdlib>
#include <cstring>
#include <exception>
#include <functional>
static int a[10], b[10], c, last;
static volatile int first;
static int less(const void *p, const void *q) { return *(const int *)p - *(const int *)q; } /* race: b */
static void add(int k) { c += k; } /* race: d */
static void take(std::exception_ptr, int k) { last = k; } /* race: e */
static void by_pointer() {
  void *(*set)(void *, int, size_t) = memset;
  cilk_spawn set(a, 0, sizeof a); /* race: a, spawn: a */
  a[3] = 1; /* race: a */
  cilk_sync;
}
static void with_callback(void (*sort)(void *, size_t, size_t, int (*)(const void *, const void *))) {
  cilk_spawn sort(b, 10, sizeof *b, less); /* race: b, spawn: b */
  b[9] = 1; /* race: b */
  cilk_sync;
}
struct Frees { void (*volatile function)(void *); }; // above -O0 a compiler may know where a pointer leads, and call that
static void of_the_heap(const Frees &frees) {
  int *block = (int *)calloc(4, sizeof *block);
  cilk_spawn (*frees.function)(block); /* race: c, spawn: c */
  first = block[0]; /* race: c */
  cilk_sync;
}
static void of_an_object() {
  std::function<void(int)> function = add;
  cilk_spawn function(3); /* spawn: d */
  c = 1; /* race: d */
  cilk_sync;
}
static void with_a_copy() {
  std::exception_ptr none;
  void (*function)(std::exception_ptr, int) = take;
  cilk_spawn function(none, 3); /* spawn: e */
  last = 1; /* race: e */
  cilk_sync;
  none = nullptr;
}
int main() {
  by_pointer();
  with_callback(qsort);
  Frees frees = {free};
  of_the_heap(frees);
  of_an_object();
  with_a_copy();
  return a[3] + b[9] + last + c - 4;
}
