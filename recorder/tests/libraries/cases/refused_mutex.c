/* expect: refused; plain: no; says: lock; a mutex */
#include <cilk/cilk.h>
#include <pthread.h>
static pthread_mutex_t lock = PTHREAD_MUTEX_INITIALIZER;
static int x;
static void add(void) {
  pthread_mutex_lock(&lock); /* refused */
  x++;
  pthread_mutex_unlock(&lock);
}
int main(void) {
  cilk_spawn add();
  add();
  cilk_sync;
  return x - 2;
}
