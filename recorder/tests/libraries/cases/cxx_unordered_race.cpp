// expect: race; a table grows while another strand looks
#include <cilk/cilk.h>
#include <unordered_map>
static std::unordered_map<int, int> table;
static int look(int key) { return int(table.count(key)); } /* race: a */
int main() {
  for (int i = 0; i < 12; i++) table[i] = i;
  int found = cilk_spawn look(3);
  for (int i = 12; i < 40; i++) table[i] = i; /* race: a */
  cilk_sync;
  return found - 1;
}
