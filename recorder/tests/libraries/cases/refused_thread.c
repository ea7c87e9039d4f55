/* expect: refused; plain: no; says: threads; a thread beside Cilk's */
#include <pthread.h>
static void *run(void *x) { return x; }
int main(void) {
  pthread_t thread;
  return pthread_create(&thread, 0, run, 0); /* refused */
}
