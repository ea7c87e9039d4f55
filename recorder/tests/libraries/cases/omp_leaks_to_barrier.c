/* expect: clean; flags: -fopenmp; tasks that end with tasks of their own outstanding, all joined by a taskgroup or a barrier */
static int out[6];
static void fill(int from) {
  for (int i = from; i < from + 3; i++) {
#pragma omp task firstprivate(i)
    out[i] = i;
  }
}
int main(void) {
  int sum = 0;
#pragma omp parallel
  {
#pragma omp single
    {
#pragma omp taskgroup
      {
#pragma omp task
        fill(0);
      }
      sum += out[0] + out[1] + out[2];
#pragma omp task
      fill(3);
    }
#pragma omp single
    sum += out[3] + out[4] + out[5];
  }
  return sum - 15;
}
