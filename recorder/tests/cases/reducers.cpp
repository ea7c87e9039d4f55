// expect: clean; Cilk Plus's reducers, by both kinds of names
#include <cilk/cilk.h>
#include <cilk/reducer.h>
#include <cilk/reducer_list.h>
#include <cilk/reducer_max.h>
#include <cilk/reducer_min.h>
#include <cilk/reducer_opadd.h>
#include <cilk/reducer_ostream.h>
#include <iostream>
#include <list>
int main() {
  cilk::reducer<cilk::op_add<long>> sum(5);
  cilk::reducer_opadd<int> old_sum(1);
  cilk::reducer<cilk::op_max<int>> most;
  cilk::reducer<cilk::op_min<int>> least;
  cilk::reducer<cilk::op_list_append<int>> list;
  cilk::reducer_ostream out(std::cout);
  cilk_for (int i = 0; i < 9; i++) {
    *sum += i;
    old_sum += i;
    most->calc_max(i);
    least->calc_min(i);
    list->push_back(i);
    out << i << '\n';
  }
  std::list<int> all = list.get_value();
  return sum.get_value() + old_sum.get_value() + most.get_value() + least.get_value() + all.size() - 95;
}
