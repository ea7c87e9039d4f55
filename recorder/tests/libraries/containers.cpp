// The functions that stand in for libstdc++'s trees and lists, by the containers themselves: random insertions, removals and walks give
// what a sorted vector gives, each tree is red-black, and each access that is told lies in a node or in the container. Built and run by
// run.py as a program whose calls are renamed; prints what differs.
#include <algorithm>
#include <cstdint>
#include <cstdio>
#include <cstdlib>
#include <list>
#include <random>
#include <set>
#include <string>
#include <unordered_map>
#include <vector>

static unsigned long told, outside;
static std::vector<std::pair<uintptr_t, uintptr_t>> *within; // sorted, where accesses may be
extern "C" {
void record_access(uintptr_t address, size_t bytes, int, uintptr_t) {
  told++;
  if (!within) return;
  auto it = std::upper_bound(within->begin(), within->end(), std::make_pair(address, UINTPTR_MAX));
  if (it == within->begin() || address + bytes > std::prev(it)->second) outside++;
}
void refuse(uintptr_t, const char *text, ...) { std::puts(text), std::exit(70); }
void note_unseen(const char *, ...) {}
void end_lives() {}
void hide_accesses(bool) {}
const void *__cilkcheck_place;
void finish_recording() {}
void *plain_malloc(size_t bytes) { return std::malloc(bytes); }
void plain_free(void *at) { std::free(at); }
void heap_made(void *, size_t, uintptr_t) {}
void heap_freed(void *block, uintptr_t) { std::free(block); }
size_t heap_bytes(const void *) { return 0; }
bool recording = true;
}

static int failures;
#define CHECK(condition) ((condition) ? (void)0 : (void)(failures++, std::printf("containers.cpp:%d: not %s\n", __LINE__, #condition)))

// The number of black nodes to each leaf, or -1 where the tree is not red-black.
static int black_height(const std::_Rb_tree_node_base *node, const std::_Rb_tree_node_base *parent) {
  if (!node) return 1;
  if (node->_M_parent != parent) return -1;
  bool red = node->_M_color == std::_S_red;
  for (auto *child : {node->_M_left, node->_M_right})
    if (red && child && child->_M_color == std::_S_red) return -1;
  int left = black_height(node->_M_left, node), right = black_height(node->_M_right, node);
  return left < 0 || left != right ? -1 : left + !red;
}
static void trees(unsigned seed, int steps, int range) {
  std::mt19937 random(seed);
  std::set<int> tree;
  std::vector<int> expected;
  for (int i = 0; i < steps; i++) {
    int value = int(random() % unsigned(range));
    bool insert = random() % (2 * unsigned(steps)) > unsigned(i);
    std::vector<std::pair<uintptr_t, uintptr_t>> places;
    auto add = [&](const void *at, size_t bytes) { places.emplace_back(uintptr_t(at), uintptr_t(at) + bytes); };
    add(&tree, sizeof tree);
    for (auto it = tree.begin(); it != tree.end(); ++it) add(it._M_node, sizeof(std::_Rb_tree_node_base));
    auto at = std::lower_bound(expected.begin(), expected.end(), value);
    bool there = at != expected.end() && *at == value;
    if (insert) {
      std::set<int> one;
      one.insert(value);
      auto handle = one.extract(value); // so that the new node's place is known
      add(&handle.value() - sizeof(std::_Rb_tree_node_base) / sizeof(int), sizeof(std::_Rb_tree_node_base));
      std::sort(places.begin(), places.end());
      within = &places;
      bool inserted = tree.insert(std::move(handle)).inserted;
      within = nullptr;
      CHECK(inserted == !there);
      if (!there) expected.insert(at, value);
    } else {
      std::sort(places.begin(), places.end());
      within = &places;
      size_t erased = tree.erase(value);
      within = nullptr;
      CHECK(erased == size_t(there));
      if (there) expected.erase(at);
    }
    CHECK(std::equal(tree.begin(), tree.end(), expected.begin(), expected.end()));
    CHECK(std::equal(tree.rbegin(), tree.rend(), expected.rbegin(), expected.rend()));
    const std::_Rb_tree_node_base *header = tree.end()._M_node, *root = header->_M_parent;
    CHECK(black_height(root, header) >= 0 && (!root || root->_M_color == std::_S_black));
  }
}
static void lists(unsigned seed) {
  std::mt19937 random(seed);
  std::list<int> a, b;
  std::vector<int> x, y;
  auto same = [&] {
    return std::equal(a.begin(), a.end(), x.begin(), x.end()) && std::equal(b.begin(), b.end(), y.begin(), y.end()) &&
           std::equal(a.rbegin(), a.rend(), x.rbegin(), x.rend()) && std::equal(b.rbegin(), b.rend(), y.rbegin(), y.rend());
  };
  for (int i = 0; i < 300; i++) {
    size_t at = x.empty() ? 0 : random() % (x.size() + 1), to = at == x.size() ? at : at + random() % (x.size() - at);
    switch (random() % 6) {
    case 0:
      a.insert(std::next(a.begin(), long(at)), i), x.insert(x.begin() + long(at), i);
      break;
    case 1:
      a.swap(b), x.swap(y);
      break;
    case 2:
      a.reverse(), std::reverse(x.begin(), x.end());
      break;
    case 3:
      b.splice(b.begin(), a, std::next(a.begin(), long(at)), std::next(a.begin(), long(to)));
      y.insert(y.begin(), x.begin() + long(at), x.begin() + long(to));
      x.erase(x.begin() + long(at), x.begin() + long(to));
      break;
    case 4:
      if (at < x.size()) a.erase(std::next(a.begin(), long(at))), x.erase(x.begin() + long(at));
      break;
    default:
      a.sort(), std::stable_sort(x.begin(), x.end());
    }
    CHECK(same());
  }
}
int main() {
  for (unsigned seed = 1; seed <= 20; seed++) trees(seed, 300, 5 << seed % 8), lists(seed);
  std::unordered_map<std::string, int> map;
  for (int i = 0; i < 1000; i++) map[std::to_string(i % 300)] += i;
  CHECK(map.size() == 300 && map["7"] == 7 + 307 + 607 + 907);
  CHECK(told > 100000);
  CHECK(outside == 0);
  std::printf("containers: %s\n", failures ? "failed" : "as expected");
  return failures != 0;
}
