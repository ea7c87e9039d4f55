// expect: refused; plain: no; says: threads; std::thread
#include <thread>
int main() {
  std::thread other([] {});
  other.join();
  return 0;
}
