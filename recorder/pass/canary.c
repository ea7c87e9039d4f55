/* One access of each kind, told as the pass should. The wrapper compiles and runs this once for each compiler, and
   refuses a compiler that fails. */
#include "canary_hooks.c"
#include <alloca.h>
#include <stdarg.h>

enum { READ, LOAD, UPDATE, WRITE };
#define TOLD(statement, at, bytes, kind)                                                                               \
  do {                                                                                                                 \
    canary_begin(#statement);                                                                                          \
    statement;                                                                                                         \
    canary_told(__LINE__, at, bytes, kind);                                                                            \
  } while (0)
#define APART __attribute__((noinline))

struct bits {
  unsigned a : 3, b : 29;
} bits;
struct node {
  int value;
  double re;
} __attribute__((packed)) node;
struct canary_big big, other;
char c;
short s;
int i, list[8];
long l;
__int128 wide;
float f;
double d;
long double ld;
volatile int vol;
_Atomic int at;
_Thread_local int local_to_thread;
typedef float lanes __attribute__((vector_size(32)));
lanes v;
typedef int four __attribute__((vector_size(16)));
four masked, mask = {-1, 0, -1, 0};
size_t three = 3;

APART static void scalars(int *p, int n) {
  TOLD(c = 1, &c, 1, WRITE);
  TOLD(s = 1, &s, 2, WRITE);
  TOLD(i = 1, &i, 4, WRITE);
  TOLD(l = 1, &l, 8, WRITE);
  TOLD(wide = 1, &wide, 16, WRITE);
  TOLD(f = 1, &f, 4, WRITE);
  TOLD(d = 1, &d, 8, WRITE);
  TOLD(ld = 1, &ld, 10, WRITE);
  TOLD(c += s, &s, 2, READ);
  TOLD(i += c, &c, 1, READ);
  TOLD(l += i, &i, 4, READ);
  TOLD(wide += l, &l, 8, READ);
  TOLD(l += wide, &wide, 16, READ);
  TOLD(d += f, &f, 4, READ);
  TOLD(f += d, &d, 8, READ);
  TOLD(d += ld, &ld, 10, READ);
  TOLD(*p = 1, list, 4, WRITE);
  TOLD(p[n] = 1, list + n, 4, WRITE);
  TOLD(*p, list, 4, READ);
  TOLD(int unused = p[n], list + n, 4, READ);
  TOLD(vol, &vol, 4, READ);
  TOLD(vol = 1, &vol, 4, WRITE);
  TOLD(node.re = 1, &node.re, 8, WRITE);
  TOLD(bits.b = 1, &bits, sizeof bits, READ);
  TOLD(bits.b = 1, &bits, sizeof bits, WRITE);
  TOLD(local_to_thread = 1, &local_to_thread, 4, WRITE);
}

APART static void atomics(int *p) {
  int expected = 1;
  TOLD(at = 1, &at, 4, UPDATE);
  TOLD(i = at, &at, 4, LOAD);
  TOLD(at++, &at, 4, UPDATE);
  TOLD(__atomic_exchange_n(p, 1, __ATOMIC_RELAXED), p, 4, UPDATE);
  TOLD(__atomic_compare_exchange_n(p, &expected, 2, 0, __ATOMIC_SEQ_CST, __ATOMIC_SEQ_CST), p, 4, UPDATE);
  TOLD(__atomic_compare_exchange_n(p, &expected, 2, 0, __ATOMIC_SEQ_CST, __ATOMIC_SEQ_CST), p, 4, LOAD);
}

APART static long takes(struct canary_big by_value) { return by_value.x[2]; }
APART static void takes_and_shares(struct canary_big by_value) {
  canary_frame(&by_value, sizeof by_value);
  TOLD(by_value.x[2] = 1, &by_value.x[2], 8, WRITE);
}

APART static void blocks(char *p, size_t n) {
  TOLD(big = other, &other, sizeof other, READ);
  TOLD(big = other, &big, sizeof big, WRITE);
  TOLD(struct canary_big unused = big, &big, sizeof big, READ);
  TOLD(__builtin_memcpy(p, &list[2], 8), &list[2], 8, READ);
  TOLD(__builtin_memcpy(p, &list[2], 8), p, 8, WRITE);
  TOLD(__builtin_memcpy(p, &list[2], n), p, n, WRITE);
  TOLD(__builtin_memmove(p, &list[2], 3), p, 3, WRITE);
  TOLD(__builtin_memset(p, 0, 100 - 90), p, 10, WRITE);
  TOLD(__builtin_memset(p, 0, n), p, n, WRITE);
  TOLD(l = takes(big), &big, sizeof big, READ);
  takes_and_shares(big);
  canary_begin("a result in memory");
  big = canary_make();
  canary_told(__LINE__ - 1, &big, sizeof big, WRITE);
  TOLD(v += 1, &v, 32, READ);
  TOLD(v += 1, &v, 32, WRITE);
  TOLD(__builtin_nontemporal_store(1, &i), &i, 4, WRITE);
}

#ifdef __x86_64__
__attribute__((target("avx"), noinline)) static void lane_by_lane(void) {
  typedef float floats __attribute__((vector_size(16)));
  four m = mask;
  canary_begin("a store with a mask");
  __builtin_ia32_maskstoreps((floats *)&masked, m, (floats){0});
  canary_told(__LINE__ - 1, (char *)&masked, 4, WRITE);
  canary_told(__LINE__ - 2, (char *)&masked + 8, 4, WRITE);
  canary_begin("a load with a mask");
  masked = (four)__builtin_ia32_maskloadps((floats *)&masked, m);
  canary_told(__LINE__ - 1, (char *)&masked + 8, 4, READ);
}
APART static void assembly(int *p) {
  TOLD(__asm__ volatile("incl %0" : "+m"(*p)), p, 4, READ);
  TOLD(__asm__ volatile("incl %0" : "+m"(*p)), p, 4, WRITE);
}
#endif

APART static long sum(int count, ...) {
  va_list arguments;
  long result = 0;
  va_start(arguments, count);
  while (count--)
    result += va_arg(arguments, long);
  va_end(arguments);
  return result;
}
APART static void starts(va_list *arguments, int count, ...) {
  TOLD(va_start(*arguments, count), arguments, sizeof *arguments, WRITE);
}

APART static void keep(int *p) { TOLD(*p = 1, p, 4, WRITE); }
APART static void locals(int n) {
  int x, y;
  canary_frame(&x, sizeof x);
  keep(&x);
  TOLD(x = 2, &x, 4, WRITE);
  y = n;
  int counted[n];
  canary_dynamic(counted, n * sizeof *counted);
  TOLD(counted[1] = y, &counted[1], 4, WRITE);
  char *taken = alloca(n);
  canary_dynamic(taken, n);
  TOLD(taken[0] = 1, taken, 1, WRITE);
}

/* whatever its attributes say */
enum { PURE = __LINE__ + 1 };
__attribute__((pure, noinline)) static int reads(void) { return i; }
__attribute__((no_sanitize("thread"), disable_sanitizer_instrumentation, optnone, noinline)) static void writes(void) {
  TOLD(i = 3, &i, 4, WRITE);
}
__attribute__((target_clones("sse4.2", "default"))) void cloned(void) { TOLD(i = 3, &i, 4, WRITE); }

int main(void) {
  scalars(list, 3);
  atomics(list);
  blocks((char *)list, three);
#ifdef __x86_64__
  if (__builtin_cpu_supports("avx"))
    lane_by_lane();
  assembly(list);
#endif
  va_list arguments;
  sum(8, 1L, 2L, 3L, 4L, 5L, 6L, 7L, 8L);
  starts(&arguments, 1, 2);
  locals(5);
  canary_begin("a call of a pure function");
  reads();
  canary_told(PURE, &i, 4, READ);
  writes();
  cloned();
  canary_depth(1);
  return canary_end();
}
