// expect: clean; flags: -fopenmp; plain: no; tasks of C++: each has its own copy of an object, made and unmade once
#include <vector>
static int made, unmade, sum;
struct Part {
  std::vector<int> numbers;
  explicit Part(int n) : numbers(n, 1) { made++; }
  Part(const Part &other) : numbers(other.numbers) {
#pragma omp atomic
    made++;
  }
  ~Part() {
#pragma omp atomic
    unmade++;
  }
};
int main() {
#pragma omp parallel
#pragma omp single
  {
    Part part(5);
    for (int i = 0; i < 3; i++) {
#pragma omp task firstprivate(part)
      {
        part.numbers[i] = 7;
#pragma omp atomic
        sum += part.numbers[i];
      }
    }
#pragma omp taskwait
    for (int it : part.numbers) sum += it;
  }
  return made != unmade || sum != 26;
}
