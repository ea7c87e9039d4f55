// expect: race; a vector, a string and a least value with its index are read while a child is outstanding
#include <cilk/cilk.h>
#include <cilk/reducer.h>
#include <cilk/reducer_min.h>
#include <cilk/reducer_string.h>
#include <cilk/reducer_vector.h>
static void take(cilk::reducer<cilk::op_vector<int>> &kept, cilk::reducer<cilk::op_string> &letters,
                 cilk::reducer<cilk::op_min_index<int, int>> &lowest) {
  kept->push_back(2);
  *letters += 'b';
  lowest->calc_min(1, 2);
}
int main() {
  cilk::reducer<cilk::op_vector<int>> kept;            /* race: a */
  cilk::reducer<cilk::op_string> letters;              /* race: b */
  cilk::reducer<cilk::op_min_index<int, int>> lowest;  /* race: c */
  cilk_spawn take(kept, letters, lowest);
  long early = kept.get_value().size(); /* race: a */
  early += letters.get_value().size();  /* race: b */
  early += lowest.get_value().second;   /* race: c */
  cilk_sync;
  return early - 4;
}
