/* expect: clean; the macros of each monoid that Cilk Plus has in C */
#include <cilk/cilk.h>
#include <cilk/reducer_max.h>
#include <cilk/reducer_min.h>
#include <cilk/reducer_opadd.h>
#include <cilk/reducer_opand.h>
#include <cilk/reducer_opmul.h>
#include <cilk/reducer_opor.h>
#include <cilk/reducer_opxor.h>
static CILK_C_REDUCER_OPADD(sum, long, 0);
static CILK_C_REDUCER_OPMUL(product, long, 1);
static CILK_C_REDUCER_OPAND(all, uint, ~0u);
static CILK_C_REDUCER_OPOR(any, uint, 0);
static CILK_C_REDUCER_OPXOR(odd, uint, 0);
static CILK_C_REDUCER_MIN(least, int, 100);
static CILK_C_REDUCER_MAX(most, int, -100);
static CILK_C_REDUCER_MIN_INDEX(lowest, int, 100);
static CILK_C_REDUCER_MAX_INDEX(highest, int, -100);
static const int numbers[] = { 7, 3, 6, 11, 5 };
static void take(int i) {
  REDUCER_VIEW(sum) += numbers[i];
  REDUCER_VIEW(product) *= numbers[i];
  REDUCER_VIEW(all) &= 8u | (unsigned)numbers[i];
  REDUCER_VIEW(any) |= (unsigned)numbers[i];
  REDUCER_VIEW(odd) ^= (unsigned)numbers[i];
  CILK_C_REDUCER_MIN_CALC(least, numbers[i]);
  CILK_C_REDUCER_MAX_CALC(most, numbers[i]);
  CILK_C_REDUCER_MIN_INDEX_CALC(lowest, i, numbers[i]);
  CILK_C_REDUCER_MAX_INDEX_CALC(highest, i, numbers[i]);
}
int main(void) {
  CILK_C_REGISTER_REDUCER(sum);
  CILK_C_REGISTER_REDUCER(product);
  CILK_C_REGISTER_REDUCER(all);
  CILK_C_REGISTER_REDUCER(any);
  CILK_C_REGISTER_REDUCER(odd);
  CILK_C_REGISTER_REDUCER(least);
  CILK_C_REGISTER_REDUCER(most);
  CILK_C_REGISTER_REDUCER(lowest);
  CILK_C_REGISTER_REDUCER(highest);
  cilk_for (int i = 0; i < 5; i++)
    take(i);
  return !(REDUCER_GET(sum) == 32 && REDUCER_GET(product) == 6930 && REDUCER_GET(all) == 8 && REDUCER_GET(any) == 15 && REDUCER_GET(odd) == 12
           && REDUCER_GET(least) == 3 && REDUCER_GET(most) == 11 && REDUCER_GET(lowest).index == 1 && REDUCER_GET(lowest).value == 3
           && REDUCER_GET(highest).index == 3 && REDUCER_GET(highest).value == 11);
}
