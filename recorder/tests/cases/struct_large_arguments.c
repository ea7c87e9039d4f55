/* expect: clean; large by-value arguments in other shapes */
#include <cilk/cilk.h>
#include <stdarg.h>
struct big { long at[9]; };
struct holder { struct big in[3]; long k; };
static long sums[20];
static void change(struct big it, int k) { it.at[3] += k; sums[k] = it.at[3]; }
static void two(struct big one, struct big other, int k) { one.at[1] = other.at[2]; other.at[3] = 1; sums[k] = one.at[1]; }
static void variadic(int k, ...) {
  va_list list;
  va_start(list, k);
  struct big it = va_arg(list, struct big);
  it.at[0]++;
  sums[k] = it.at[0];
  va_end(list);
}
static struct big twice(struct big it) { it.at[0] *= 2; return it; }
static long of(struct big it) { it.at[8]++; return it.at[8]; }
static struct big returned(struct big it, int k) { it.at[4] = k; return it; }
int main(void) {
  struct holder holder = {{{{0}}}, 0};
  struct big a = {{0}}, r;
  void (*pointer)(struct big, int) = change;
  struct big *p = &holder.in[1];
  cilk_spawn pointer(a, 1);
  a.at[3] = 1;
  cilk_spawn change(holder.in[1], 2);
  holder.in[1].at[3] = 2;
  cilk_spawn change(*p, 3);
  p->at[3] = 3;
  cilk_spawn two(a, *p, 4);
  a.at[1] = 9; p->at[2] = 9;
  cilk_spawn two(a, a, 5);
  a.at[1] = 9;
  cilk_spawn variadic(6, a);
  a.at[0] = 3;
  cilk_spawn change(twice(a), 7);
  a.at[0] = 4;
  cilk_spawn change(a, (int)(of(a) - 1) + 8);
  a.at[8] = 0;
  sums[19] = cilk_spawn of(a);
  a.at[8] = 1;
  r = cilk_spawn returned(a, 3);
  a.at[4] = 1;
  change(a, 9);
  two(*p, a, 10);
  for (int i = 11; i < 14; i++) {
    struct big here = a;
    cilk_spawn change(here, i);
    here.at[3]++;
    change(here, i + 3);
  }
  cilk_sync;
  return r.at[4] - 3;
}
