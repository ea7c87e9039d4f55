// expect: race; what is read from a stream is written
#include <cilk/cilk.h>
#include <sstream>
#include <string>
static void get(std::istringstream &s, int &n, std::string &word) {
  s >> n;    /* race: a */
  s >> word; /* race: b */
}
int main() {
  std::istringstream s("12 word");
  int n = 0;
  std::string word;
  cilk_spawn get(s, n, word);
  int seen = n; /* race: a */
  std::size_t size = word.size(); /* race: b */
  cilk_sync;
  return seen + int(size) - 16;
}
