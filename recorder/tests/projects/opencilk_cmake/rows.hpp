#pragma once
#include <cilk/cilk.h>
#include <memory>
#include <vector>
struct rows {
  std::vector<double> cells;
  int width;
  double *row(int y) { return cells.data() + static_cast<long>(y) * width; }
};
