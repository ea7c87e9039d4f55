/* expect: clean; flags: -fopenmp; a function returns while its tasks run, and they use what is not its own */
static int out[3];
static void start(int *at) {
  for (int i = 0; i < 3; i++) {
#pragma omp task firstprivate(at, i)
    at[i] = i;
  }
}
int main(void) {
#pragma omp parallel
#pragma omp single
  start(out);
  return out[0] + out[1] + out[2] - 3;
}
