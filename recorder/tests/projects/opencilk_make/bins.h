#ifndef BINS_H
#define BINS_H
#ifdef __cplusplus
extern "C" {
#endif
void count_into(long *bins, const unsigned char *bytes, long n);
#ifdef __cplusplus
}
#endif
#endif
