/* expect: clean; spawns as parts of statements, behind labels, in a switch, in loops */
#include <cilk/cilk.h>
static int a[16];
static int set(int i, int k) { a[i] = k; return k; }
int main(void) {
  int i = 0, x = 0, y = 0;
  if (x) cilk_spawn set(0, 1);
  else if (!y) cilk_spawn set(1, 2);
  else x = cilk_spawn set(2, 3);
  for (; i < 3; i++) cilk_spawn set(3 + i, i);
  while (i < 5) { cilk_spawn set(3 + i, i); i++; }
  cilk_sync;
  do cilk_spawn set(3 + i, i); while (++i < 7);
  switch (i) {
  case 1: x = cilk_spawn set(12, 1); break;
  case 7: x = cilk_spawn set(13, 7);
  default: y = cilk_spawn set(14, 8);
  }
  goto end;
  cilk_spawn set(15, 9);
end: cilk_spawn set(15, 10);
  cilk_sync;
  return a[1] + a[4] + a[9] + a[13] + a[14] + a[15] + x + y - (2 + 1 + 6 + 7 + 8 + 10 + 7 + 8);
}
