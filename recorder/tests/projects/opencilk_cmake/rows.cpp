#include "rows.hpp"

static void smooth_row(rows &from, rows &to, int y) {
  for (int x = 1; x < from.width - 1; x++)
    to.row(y)[x] = (from.row(y)[x - 1] + from.row(y)[x + 1]) / 2; /* race: a a */
}

extern "C" double smooth(int height, int width) {
  auto from = std::make_unique<rows>(rows{std::vector<double>(height * width, 1.0), width});
  rows to{std::vector<double>(height * width, 1.0), width};
#ifdef RACE
  cilk_for (int y = 0; y < height; y++)
    smooth_row(*from, *from, y / 2);
#else
  cilk_for (int y = 0; y < height; y++)
    smooth_row(*from, to, y);
#endif
  double sum = 0;
  for (double it : to.cells)
    sum += it;
  return sum;
}
