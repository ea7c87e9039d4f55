/* The headers of the processor's intrinsics: their accesses are of the calling line. flags: -mavx2 */
#include <immintrin.h>

void streams(__m128i *p) { _mm_stream_si128(p, _mm_set1_epi32(1)); }       /* told: write16 *p */
void stores(int *p) { _mm_storeu_si128((void *)p, _mm_setzero_si128()); }  /* told: write16 *p */
__m256i loads(int *p) { return _mm256_loadu_si256((void *)p); }            /* told: read32 *p */
void unused(int *p) { _mm256_loadu_si256((void *)p); }                     /* told: read32 *p */
void masked(double *p, __m128i m, __m128d v) { _mm_maskstore_pd(p, m, v); } /* told: write? *p; write? *p */
void half(double *p, __m128d v) { _mm_storel_pd(p, v); }                   /* told: write8 *p */
int own(void) {
  int a[4];
  _mm_storeu_si128((void *)a, _mm_setzero_si128());
  return a[0];
}
int shared(void) {                                                         /* frame: a 16 */
  int a[4];
  void sink(void *);
  _mm_storeu_si128((void *)a, _mm_setzero_si128());                        /* told: write16 a */
  sink(a);
  return a[0];                                                             /* told: read4 a[] */
}
