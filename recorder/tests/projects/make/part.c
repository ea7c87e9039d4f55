#include "total.h"
int part(int count) { return count / 2; }
