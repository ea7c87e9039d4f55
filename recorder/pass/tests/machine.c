/* Intrinsics of the compiler and of the processor. flags: -mavx512f -mavx512vl -mavx512bw -mrdrnd -mfxsr -mxsave */
#include <immintrin.h>
#include <stdint.h>
#define TOLD __attribute__((noinline))


typedef int v4i __attribute__((vector_size(16)));
typedef int v8i __attribute__((vector_size(32)));
typedef int v16i __attribute__((vector_size(64)));
typedef float v4f __attribute__((vector_size(16)));
typedef float v8f __attribute__((vector_size(32)));
typedef double v2d __attribute__((vector_size(16)));
typedef double v8d __attribute__((vector_size(64)));
typedef char v16c __attribute__((vector_size(16)));
typedef long long v2q __attribute__((vector_size(16)));
typedef long long v8q __attribute__((vector_size(64)));

v4f mask_load(v4f *p, v4i m) { return __builtin_ia32_maskloadps(p, m); }        /* told: read? *p; read? *p; read? *p; read? *p */
void mask_store(v2d *p, v2q m, v2d v) { __builtin_ia32_maskstorepd(p, m, v); }  /* told: write? *p; write? *p */
void mask_move(v16c v, v16c m, char *p) { __builtin_ia32_maskmovdqu(v, m, p); } /* told: write? *p; write? *p; write? *p; write? *p; write? *p; write? *p; write? *p; write? *p; write? *p; write? *p; write? *p; write? *p; write? *p; write? *p; write? *p; write? *p */
v2d gathers(v2d s, double *p, v4i i, v2d m) { return __builtin_ia32_gatherd_pd(s, p, i, m, 8); } /* told: read? *p; read? *p */
v8d gathers_512(v8d s, void *p, v8i i, unsigned char m) { return __builtin_ia32_gathersiv8df(s, p, i, m, 8); } /* told: read? *p; read? *p; read? *p; read? *p; read? *p; read? *p; read? *p; read? *p */
void scatters_512(void *p, unsigned char m, v8i i, v8d v) { __builtin_ia32_scattersiv8df(p, m, i, v, 8); } /* told: write? *p; write? *p; write? *p; write? *p; write? *p; write? *p; write? *p; write? *p */
void expands(v8d *p, v8d v, unsigned char m) { __builtin_ia32_compressstoredf512_mask(p, v, m); } /* told: write? *p */
v8d compresses(v8d *p, v8d v, unsigned char m) { return __builtin_ia32_expandloaddf512_mask(p, v, m); } /* told: read? *p */
v16c loads_unaligned(char *p) { return __builtin_ia32_lddqu(p); }               /* told: read16 *p */
void streams(v2q *p, v2q v) { __builtin_nontemporal_store(v, p); }              /* told: write16 *p */
void streams_int(int *p) { __builtin_nontemporal_store(1, p); }                 /* told: write4 *p */
int chance(unsigned *p) { return __builtin_ia32_rdrand32_step(p); }             /* told: write4 *p */
unsigned rounding(void) { return __builtin_ia32_stmxcsr(); }
void saves(void *p) { __builtin_ia32_fxsave(p); }                               /* told: write512 *p */
void saves_all(void *p) { __builtin_ia32_xsave(p, 1); }                         /* note: intrinsic llvm.x86.xsave */
void prefetches(int *p) { __builtin_prefetch(p); }
void flushes(int *p) { __builtin_ia32_clflush(p); }
void fences(void) { __builtin_ia32_mfence(); }
unsigned carry(unsigned long long *p) { return __builtin_ia32_addcarryx_u64(0, 1, 2, p); } /* told: write8 *p */
int own_lanes(v4i m, v4f v) { v4f own = {0}; __builtin_ia32_maskstoreps(&own, m, v); return own[0] > 0; }



