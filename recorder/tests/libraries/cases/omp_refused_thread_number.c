/* expect: refused; flags: -fopenmp; plain: no; says: omp_get_thread_num; the thread of a task is the schedule's choice */
#include <omp.h>
static int slots[8];
int main(void) {
#pragma omp parallel
#pragma omp single
  {
    for (int i = 0; i < 4; i++) {
#pragma omp task
      slots[omp_get_thread_num()]++; /* refused */
    }
  }
  return 0;
}
