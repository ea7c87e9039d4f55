/* Wrappers of libc and libm: numbers in strings, random numbers, and functions with results by pointer. See libc.h. Mathematical
   functions that touch no memory stand in names/harmless. */
#define _GNU_SOURCE
#include "libc.h"
#include <inttypes.h>
#include <math.h>
#include <stdlib.h>
#include <string.h>
#include <strings.h>

DEFINE_STATE(rand);
DEFINE_STATE(drand48);

/* ---- numbers in strings ---- */

/* What is read of a number that ends at `end` is at least the character behind it. More is read where what follows might belong to
   the number: 0x, an exponent's letter and sign, the words of infinity and nan, and space and sign of what is no number. */
static const char *last_of_word(const char *at, const char *word) {
  while (*word && *at && strncasecmp(at, word, 1) == 0) at++, word++;
  return *word ? at : at - 1;
}
static void tell_number(const char *from, const char *end, bool floating, uintptr_t place) {
  const char *begin = from + strspn(from, " \t\n\v\f\r");
  if (*begin == '+' || *begin == '-') begin++;
  const char *last = end > begin ? end : begin;  /* the last character that is read */
  if (end == begin + 1 && *begin == '0' && (*end == 'x' || *end == 'X')) last = end + 1;
  if (floating && end > begin && strchr("eEpP", *end) && *end) {
    last = end + 1;
    if (*last == '+' || *last == '-') last++;
  }
  const char *word = *begin == 'i' || *begin == 'I' ? "infinity" : *begin == 'n' || *begin == 'N' ? "nan" : NULL;
  if (floating && word && last_of_word(begin, word) > last) last = last_of_word(begin, word);
  tell(from, (size_t)(last + 1 - from), ACCESS_READ, place);
  tell(&STATE_NAME(locale), sizeof(uint32_t), ACCESS_READ, place);
}
#define NUMBER(type, name, ...) /* strtol and kin */       \
  char *stop;                                              \
  type value = name(from, &stop, ##__VA_ARGS__);           \
  tell_number(from, stop, FLOATING, PLACE);                \
  if (end) {                                               \
    WRITE(end, sizeof *end);                               \
    *end = stop;                                           \
  }                                                        \
  return value
#define FLOATING false
WRAPPER(long, strtol, const char *from, char **end, int base) { NUMBER(long, strtol, base); }
WRAPPER(unsigned long, strtoul, const char *from, char **end, int base) { NUMBER(unsigned long, strtoul, base); }
WRAPPER(long long, strtoll, const char *from, char **end, int base) { NUMBER(long long, strtoll, base); }
WRAPPER(unsigned long long, strtoull, const char *from, char **end, int base) { NUMBER(unsigned long long, strtoull, base); }
WRAPPER(intmax_t, strtoimax, const char *from, char **end, int base) { NUMBER(intmax_t, strtoimax, base); }
WRAPPER(uintmax_t, strtoumax, const char *from, char **end, int base) { NUMBER(uintmax_t, strtoumax, base); }
#undef FLOATING
#define FLOATING true
WRAPPER(double, strtod, const char *from, char **end) { NUMBER(double, strtod); }
WRAPPER(float, strtof, const char *from, char **end) { NUMBER(float, strtof); }
WRAPPER(long double, strtold, const char *from, char **end) { NUMBER(long double, strtold); }
#undef FLOATING

WRAPPER(int, atoi, const char *from) {
  char *stop;
  long value = strtol(from, &stop, 10);
  tell_number(from, stop, false, PLACE);
  return (int)value;
}
WRAPPER(long, atol, const char *from) {
  char *stop;
  long value = strtol(from, &stop, 10);
  tell_number(from, stop, false, PLACE);
  return value;
}
WRAPPER(long long, atoll, const char *from) {
  char *stop;
  long long value = strtoll(from, &stop, 10);
  tell_number(from, stop, false, PLACE);
  return value;
}
WRAPPER(double, atof, const char *from) {
  char *stop;
  double value = strtod(from, &stop);
  tell_number(from, stop, true, PLACE);
  return value;
}

/* ---- random numbers: a state of libc's, or one that the program hands over ---- */

WRAPPER(int, rand, void) {
  WRITE_STATE(rand);
  return rand();
}
WRAPPER(void, srand, unsigned seed) {
  WRITE_STATE(rand);
  srand(seed);
}
WRAPPER(long, random, void) {
  WRITE_STATE(rand);
  return random();
}
WRAPPER(void, srandom, unsigned seed) {
  WRITE_STATE(rand);
  srandom(seed);
}
WRAPPER(char *, initstate, unsigned seed, char *state, size_t bytes) {
  WRITE_STATE(rand);
  WRITE(state, bytes);
  return initstate(seed, state, bytes);
}
WRAPPER(char *, setstate, char *state) {
  WRITE_STATE(rand);
  return setstate(state);
}
WRAPPER(int, rand_r, unsigned *seed) {
  READ(seed, sizeof *seed);
  WRITE(seed, sizeof *seed);
  return rand_r(seed);
}
WRAPPER(double, drand48, void) {
  WRITE_STATE(drand48);
  return drand48();
}
WRAPPER(long, lrand48, void) {
  WRITE_STATE(drand48);
  return lrand48();
}
WRAPPER(long, mrand48, void) {
  WRITE_STATE(drand48);
  return mrand48();
}
WRAPPER(void, srand48, long seed) {
  WRITE_STATE(drand48);
  srand48(seed);
}
WRAPPER(unsigned short *, seed48, unsigned short seed[3]) {
  WRITE_STATE(drand48);
  READ(seed, 3 * sizeof *seed);
  unsigned short *before = seed48(seed);
  WRITE(before, 3 * sizeof *before);
  return before;
}
WRAPPER(void, lcong48, unsigned short parameters[7]) {
  WRITE_STATE(drand48);
  READ(parameters, 7 * sizeof *parameters);
  lcong48(parameters);
}
/* The state is the caller's; multiplier and addend are libc's. */
#define FROM_OWN_STATE(name)         \
  READ_STATE(drand48);               \
  READ(state, 3 * sizeof *state);    \
  WRITE(state, 3 * sizeof *state);   \
  return name(state)
WRAPPER(double, erand48, unsigned short state[3]) { FROM_OWN_STATE(erand48); }
WRAPPER(long, nrand48, unsigned short state[3]) { FROM_OWN_STATE(nrand48); }
WRAPPER(long, jrand48, unsigned short state[3]) { FROM_OWN_STATE(jrand48); }

/* ---- libm: results by pointer ---- */

#define BY_POINTER(type, suffix)                                         \
  WRAPPER(type, frexp##suffix, type x, int *exponent) {                  \
    WRITE(exponent, sizeof *exponent);                                   \
    return frexp##suffix(x, exponent);                                   \
  }                                                                      \
  WRAPPER(type, modf##suffix, type x, type *whole) {                     \
    WRITE(whole, sizeof *whole);                                         \
    return modf##suffix(x, whole);                                       \
  }                                                                      \
  WRAPPER(type, remquo##suffix, type x, type y, int *quotient) {         \
    WRITE(quotient, sizeof *quotient);                                   \
    return remquo##suffix(x, y, quotient);                               \
  }                                                                      \
  WRAPPER(void, sincos##suffix, type x, type *sine, type *cosine) {      \
    WRITE(sine, sizeof *sine);                                           \
    WRITE(cosine, sizeof *cosine);                                       \
    sincos##suffix(x, sine, cosine);                                     \
  }                                                                      \
  WRAPPER(type, lgamma##suffix##_r, type x, int *sign) {                 \
    WRITE(sign, sizeof *sign);                                           \
    return lgamma##suffix##_r(x, sign);                                  \
  }                                                                      \
  WRAPPER(type, lgamma##suffix, type x) {                                \
    WRITE(&signgam, sizeof signgam); /* a global variable of libm */     \
    return lgamma##suffix(x);                                            \
  }                                                                      \
  WRAPPER(type, nan##suffix, const char *tag) {                          \
    READ_STRING(tag);                                                    \
    return nan##suffix(tag);                                             \
  }
BY_POINTER(double, )
BY_POINTER(float, f)
BY_POINTER(long double, l)
