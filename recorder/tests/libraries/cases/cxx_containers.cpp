// expect: clean; strands with maps, sets, lists, tables and queues of their own, and one that all read
#include <cilk/cilk.h>
#include <algorithm>
#include <deque>
#include <list>
#include <map>
#include <numeric>
#include <queue>
#include <set>
#include <string>
#include <unordered_map>
#include <unordered_set>
#include <vector>
static int work(int seed, const std::map<int, std::string> &names) {
  std::map<std::string, int> counts;
  std::set<int> seen;
  std::list<int> order;
  std::unordered_map<int, std::string> table;
  std::unordered_set<std::string> words;
  std::deque<int> ends;
  std::priority_queue<int> heap;
  for (int i = 0; i < 40; i++) {
    int key = (i * 7 + seed) % 23;
    counts[names.at(key % 10)]++;
    seen.insert(key);
    order.push_back(key);
    table[key] += names.find(key % 10)->second;
    words.insert(std::to_string(key));
    ends.push_front(i);
    heap.push(key);
  }
  order.sort();
  order.unique();
  order.reverse();
  for (int odd = 1; odd < 23; odd += 2) seen.erase(odd);
  std::vector<int> all(ends.begin(), ends.end());
  std::sort(all.begin(), all.end());
  return int(counts.size() + order.size() + table.size() + words.size()) + heap.top() + std::accumulate(seen.begin(), seen.end(), 0) + all.back();
}
int main() {
  std::map<int, std::string> names;
  for (int i = 0; i < 10; i++) names[i] = std::string("name number ") + std::to_string(i);
  int x = cilk_spawn work(1, names);
  int y = cilk_spawn work(1, names);
  int z = work(1, names);
  cilk_sync;
  return x - y + z - y;
}
