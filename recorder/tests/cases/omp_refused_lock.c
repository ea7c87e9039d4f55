/* expect: refused; flags: -fopenmp; plain: no; locks are not spawn-sync */
#include <omp.h>
int x;
int main(void) {
  omp_lock_t lock;
  omp_init_lock(&lock); /* refused */
#pragma omp parallel
  {
    omp_set_lock(&lock); /* refused */
    x++;
    omp_unset_lock(&lock);
  }
  return 0;
}
