// expect: refused; flags: -pthread; plain: no; nor are those of C++
#include <cilk/cilk.h>
#include <thread>
static int x;
int main() {
  std::thread thread([] { x++; }); // refused
  thread.join();
  return 0;
}
