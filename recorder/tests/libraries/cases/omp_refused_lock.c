/* expect: refused; flags: -fopenmp; plain: no; says: lock; a lock */
#include <omp.h>
static omp_lock_t lock;
static int x;
int main(void) {
  omp_init_lock(&lock);
#pragma omp parallel
  {
    omp_set_lock(&lock); /* refused */
    x++;
    omp_unset_lock(&lock);
  }
  return 0;
}
