// expect: clean; levels: all; places that are objects: each spawn has its own, made by the spawner
#include <cilk/cilk.h>
#include <map>
#include <string>
#include <vector>
struct cells {
  int at[8];
  struct proxy { int *to; proxy &operator=(int k) { *to = k; return *this; } proxy &operator+=(int k) { *to += k; return *this; } ~proxy() { to = nullptr; } };
  proxy operator[](int i) { return proxy{at + i}; }
  int &operator()(int i, int j) { return at[2 * i + j]; }
};
struct pointer { cells *to; cells *operator->() const { return to; } cells &operator*() const { return *to; } };
static int get(int k) { return k; }
int main() {
  cells it = {};
  pointer smart = {&it};
  std::map<std::string, int> named;
  std::vector<bool> bits(3);
  for (int i = 0; i < 4; i++) it[i] = cilk_spawn get(i);
  for (int i = 2; i < 4; i++) it(i, 0) = cilk_spawn get(i);
  for (int i = 2; i < 4; i++) smart->at[2 * i + 1] = cilk_spawn get(i);
  named["a"] = 1;
  cilk_sync;
  for (int i = 0; i < 4; i++) it[i] += cilk_spawn get(1);
  named[std::string("a")] += cilk_spawn get(2);
  bits[1] = cilk_spawn get(1);
  cilk_sync;
  for (int i = 0; i < 3; i++) { bits[i] = cilk_spawn get(1); cilk_sync; }
  return it.at[0] + it.at[3] + it.at[4] + it.at[6] + it.at[7] + named["a"] + bits[0] + bits[1] - (1 + 4 + 2 + 3 + 3 + 3 + 1 + 1);
}
