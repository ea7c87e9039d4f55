/* expect: clean; large structures by value: each call has a copy of its own, which it may write */
#include <cilk/cilk.h>
struct big { long at[40]; };
long got[8];
static void change(struct big it, int k) {
  it.at[3] += k;
  it.at[39] = k;
  got[k] = it.at[3];
}
static struct big make(int k) {
  struct big it = {{k}};
  it.at[3] = k;
  return it;
}
static void deeper(struct big it, int k) {
  if (k > 4) {
    cilk_spawn deeper(it, k - 1);
    it.at[3]++;
    deeper(it, k - 2);
  }
  it.at[k]++;
}
int main(void) {
  struct big a = {{0}};
  cilk_spawn change(a, 0);
  cilk_spawn change(a, 1);
  a.at[3] = 7;
  cilk_spawn change(make(2), 2);
  change(a, 3);
  cilk_sync;
  cilk_spawn deeper(a, 5);
  a.at[3] = 8;
  deeper(make(6), 4);
  cilk_sync;
  return got[0] + got[1] + got[2] + got[3] - 15;
}
