/* expect: clean; flags: -fopenmp; each task has its own copy, made when the task is made */
#include <string.h>
struct part { int at[6]; };
static int out[4];
static void use(struct part *p, int i) { out[i] = p->at[i]; }
int main(void) {
#pragma omp parallel
#pragma omp single
  {
    struct part p;
    for (int i = 0; i < 4; i++) {
      p.at[i] = i * i;
#pragma omp task firstprivate(p)
      use(&p, i);
      p.at[i] = -1;
    }
#pragma omp taskwait
  }
  return out[0] + out[1] + out[2] + out[3] - 14;
}
