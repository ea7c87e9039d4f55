/* expect: race; levels: all; flags: -mavx; plain: no; vectors, non-temporal and masked stores */
#include <cilk/cilk.h>
#include <immintrin.h>
static __m128i a[2], b[2];
static float c[8], d[8];
static int e;
static void stream(void) { _mm_stream_si128(&a[1], _mm_set1_epi32(1)); _mm_stream_si32(&e, 3); } /* race: a e */
static void whole(void) { b[1] = _mm_set1_epi8(2); } /* race: b */
static void masked(void) { _mm256_maskstore_ps(c, _mm256_set1_epi32(-1), _mm256_set1_ps(3)); } /* race: c */
static void load(void) { c[0] = _mm256_cvtss_f32(_mm256_loadu_ps(d)); } /* race: d */
int main(void) {
  cilk_spawn stream();  /* spawn: a e */
  ((char *)a)[31] = 1;  /* race: a */
  e = 1;                /* race: e */
  cilk_sync;
  cilk_spawn whole();   /* spawn: b */
  ((char *)b)[16] = 1;  /* race: b */
  cilk_sync;
  cilk_spawn masked();  /* spawn: c */
  c[7] = 1;             /* race: c */
  cilk_sync;
  cilk_spawn load();    /* spawn: d */
  d[7] = 1;             /* race: d */
  cilk_sync;
  return 0;
}
