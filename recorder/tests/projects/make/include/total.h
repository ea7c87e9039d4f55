#ifndef TOTAL_H
#define TOTAL_H
#include <cilk/cilk.h>
double sum(const double *at, int count);
void scale(double *at, int count, double by);
int part(int count);
extern long calls;
#endif
