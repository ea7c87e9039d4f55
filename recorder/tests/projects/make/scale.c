#include "total.h"
void scale(double *at, int count, double by) {
  cilk_for (int i = 0; i < count; i++)
    at[i] *= by;
}
