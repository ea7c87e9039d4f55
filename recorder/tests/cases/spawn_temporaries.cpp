// expect: clean; levels: all; temporaries of each spawn are its own; arguments of classes are made by the spawner
#include <cilk/cilk.h>
#include <initializer_list>
#include <memory>
#include <string>
static int made;
struct value {
  int n;
  value(int k) : n(k) { made++; }
  value(const value &other) : n(other.n) { made++; }
  ~value() { n = -1; }
  int twice() const { return 2 * n; }
};
static int results[8];
static void take(value it, int i) { results[i] += it.n; it.n = 0; }
static void look(const value &it, int i) { results[i] += it.n; }
static void list(std::initializer_list<int> them, int i) { for (int it : them) results[i] += it; }
static void text(const std::string &it, int i) { results[i] += static_cast<int>(it.size()); }
static void own(std::unique_ptr<int> it, int i) { results[i] += *it; }
static void two(const value &a, value b, int i) { results[i] += a.n + b.n; }
int main() {
  value local(4);
  for (int i = 0; i < 3; i++) cilk_spawn take(value(i), i);
  for (int i = 3; i < 6; i++) cilk_spawn look(i, i);
  made++;
  cilk_sync;
  for (int i = 0; i < 3; i++) cilk_spawn take(local, i);
  local.n = 5;
  for (int i = 3; i < 5; i++) cilk_spawn list({i, i + 1}, i);
  for (int i = 5; i < 7; i++) cilk_spawn text(std::string("a text ") + std::string(20, 'x'), i);
  cilk_spawn own(std::make_unique<int>(3), 7);
  cilk_sync;
  cilk_spawn two(6, local, 0);
  cilk_spawn two({7}, {8}, 1);
  results[2] = cilk_spawn value(9).twice();
  made++;
  local.n = 6;
  cilk_sync;
  return results[0] + results[1] + results[2] + results[3] + results[5] + results[6] + results[7] - (4 + 11 + 5 + 15 + 18 + (3 + 7) + (5 + 27) + 27 + 3);
}
