// expect: refused; says: a reducer of OpenCilk; the class of its header
#include <cilk/cilk.h>
#include <cilk/opadd_reducer.h>
int main() {
  cilk::opadd_reducer<int> sum = 0; // refused
  cilk_for (int i = 0; i < 4; i++) sum += i;
  return sum - 6;
}
