// expect: clean; each monoid of Cilk Plus in C++, by both kinds of names
#include <cilk/cilk.h>
#include <cilk/reducer.h>
#include <cilk/reducer_list.h>
#include <cilk/reducer_max.h>
#include <cilk/reducer_min.h>
#include <cilk/reducer_opand.h>
#include <cilk/reducer_opmul.h>
#include <cilk/reducer_opor.h>
#include <cilk/reducer_opxor.h>
#include <cilk/reducer_string.h>
#include <cilk/reducer_vector.h>
static const int numbers[] = {7, 3, 6, 11, 5};
int main() {
  cilk::reducer<cilk::op_mul<long>> product(1);
  cilk::reducer<cilk::op_and<unsigned>> all(~0u);
  cilk::reducer<cilk::op_or<unsigned>> any(0);
  cilk::reducer<cilk::op_xor<unsigned>> odd(0);
  cilk::reducer_opmul<long> old_product(1);
  cilk::reducer_opand<unsigned> old_all(~0u);
  cilk::reducer_opor<unsigned> old_any(0);
  cilk::reducer_opxor<unsigned> old_odd(0);
  cilk::reducer<cilk::op_min_index<int, int>> lowest;
  cilk::reducer<cilk::op_max_index<int, int>> highest;
  cilk::reducer<cilk::op_vector<int>> kept;
  cilk::reducer<cilk::op_string> letters;
  cilk::reducer_string old_letters;
  cilk::reducer<cilk::op_list_prepend<int>> turned;
  cilk_for (int i = 0; i < 5; i++) {
    *product *= numbers[i];
    *all &= 8u | unsigned(numbers[i]);
    *any |= unsigned(numbers[i]);
    *odd ^= unsigned(numbers[i]);
    old_product *= numbers[i];
    old_all &= 8u | unsigned(numbers[i]);
    old_any |= unsigned(numbers[i]);
    old_odd ^= unsigned(numbers[i]);
    lowest->calc_min(i, numbers[i]);
    highest->calc_max(i, numbers[i]);
    kept->push_back(numbers[i]);
    *letters += char('a' + i);
    old_letters += char('a' + i);
    turned->push_front(numbers[i]);
  }
  return !(product.get_value() == 6930 && all.get_value() == 8u && any.get_value() == 15u && odd.get_value() == 12u &&
           old_product.get_value() == 6930 && old_all.get_value() == 8u && old_any.get_value() == 15u && old_odd.get_value() == 12u &&
           lowest.get_value().first == 1 && lowest.get_value().second == 3 && highest.get_value().first == 3 &&
           highest.get_value().second == 11 && kept.get_value() == std::vector<int>(numbers, numbers + 5) &&
           letters.get_value() == "abcde" && old_letters.get_value() == "abcde" && turned.get_value().front() == 5);
}
