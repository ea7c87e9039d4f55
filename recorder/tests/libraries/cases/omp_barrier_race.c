/* expect: race; flags: -fopenmp; plain: no; threads of a region race between two barriers, and not across one */
#include <omp.h>
static int a[3], b[3];
int main(void) {
#pragma omp parallel num_threads(2)
  {
    int own = omp_get_thread_num();
    a[own] = own;
    b[own + 1] = a[own];
#pragma omp barrier
    b[own] = a[!own]; /* race: a */
    a[2] += b[1]; /* race: b b, race: a */
  }
  return 0;
}
