/* expect: race; memory of mmap; what is mapped there later is another location */
#define _DEFAULT_SOURCE
#include <cilk/cilk.h>
#include <sys/mman.h>
static int *map(void) { return mmap(0, 4096, PROT_READ | PROT_WRITE, MAP_PRIVATE | MAP_ANONYMOUS, -1, 0); }
static void set(int *p) { p[5] = 1; } /* race: a */
static void own(void) { int *p = map(); p[5] = 1; munmap(p, 4096); }
int main(void) {
  int *p = map();
  cilk_spawn set(p); /* spawn: a */
  p[5] = 2;          /* race: a */
  cilk_spawn own();
  cilk_spawn own();
  cilk_sync;
  return p[5] - 2;
}
