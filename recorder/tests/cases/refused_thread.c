/* expect: refused; flags: -pthread; plain: no; threads are not strands */
#include <cilk/cilk.h>
#include <pthread.h>
static int x;
static void *run(void *at) { x++; return at; }
int main(void) {
  pthread_t thread;
  pthread_create(&thread, 0, run, 0); /* refused */
  x++;
  pthread_join(thread, 0);
  return 0;
}
