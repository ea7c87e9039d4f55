#pragma once
#include <vector>
using Numbers = std::vector<int>;
void sort(Numbers::iterator first, Numbers::iterator last);
extern "C" void shuffle(int *at, int count);
