/* expect: clean; large structures by value where the caller's frame grows: their room is used again by what is called next */
#include <alloca.h>
#include <cilk/cilk.h>
#include <string.h>
struct big { long at[40]; };
static long sums[20];
static void change(struct big it, int k) { it.at[3] += k; it.at[39] = k; it.at[0] = 4; sums[k] = it.at[3]; }
static void locals(int k) {
  volatile long mine[100];
  for (int i = 0; i < 100; i++)
    mine[i] = k;
  sums[k] = mine[k];
}
static long plain(struct big it) { it.at[5] = 1; it.at[20]++; return it.at[5]; }
static void child(struct big *all, int k) {
  long *room = alloca(k * 16);
  room[0] = k;
  sums[k] = plain(*all) + room[0];
}
static void spawns(int n) {
  struct big a = {{0}};
  long length[n];
  memset(length, 0, sizeof length);
  cilk_spawn change(a, 0);
  locals(1);
  cilk_spawn change(a, 2);
  cilk_spawn locals(3);
  plain(a);
  cilk_spawn child(&a, 4);
  child(&a, 5);
  plain(a);
  char *more = alloca(n * 100);
  cilk_spawn change(a, 6);
  more[0] = 1;
  memset(more, 1, n * 100);
  cilk_spawn change(a, 7);
  locals(8);
  cilk_sync;
}
int main(void) {
  spawns(3);
  return sums[0] + sums[7] - 7;
}
