/* expect: race; a byte of a word, the last byte of a word that is not aligned */
#include <cilk/cilk.h>
#include <stdint.h>
union { uint64_t word; unsigned char bytes[8]; } x;
struct __attribute__((packed)) { char a; uint32_t b; char d; } p;
static void set(void) { x.word = 1; p.b = 2; } /* race: a b */
int main(void) {
  uint8_t *b = (uint8_t *)&p;
  cilk_spawn set();        /* spawn: a b */
  int got = x.bytes[7];    /* race: a */
  got += b[4];             /* race: b */
  b[5] = 3;
  b[0] = 3;
  cilk_sync;
  return got;
}
