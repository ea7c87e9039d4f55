/* The functions of libstdc++ behind iostream. See libc.h.

   - std::cin, cout, cerr and clog: the standard lets their input and output functions be called by several threads at once, so they do
     not race with one another; they read the format (width, precision, flags), which std::setw and its kin write.
   - Any other stream is an object like others: a function that works on it writes its fields, one that only asks reads them.
   A stream's fields are those of its std::ios_base, which lies where the virtual table says. */
#include "libc.h"
#include <string.h>

/* The layout of std::ios_base, as far as programs' inline functions use it. */
struct fields { void *table; long precision, width; int flags, exceptions, state; };
enum { FORMAT = offsetof(struct fields, precision), FORMAT_BYTES = offsetof(struct fields, exceptions) - FORMAT, ALL_BYTES = offsetof(struct fields, state) + sizeof(int) };

/* A std::string: its characters lie in the object or in a block. */
struct string { char *data; size_t length; char own[16]; };

typedef struct stream stream;                    /* a std::istream or std::ostream */
typedef stream *manipulator(stream *);
extern stream _ZSt3cin __attribute__((weak)), _ZSt4cout __attribute__((weak)), _ZSt4cerr __attribute__((weak)), _ZSt4clog __attribute__((weak));
static bool unsynchronized;

/* The std::ios_base of a std::istream or std::ostream, by the offset of its virtual base. None where it was not made, as std::cout in a
   program without <iostream>. */
static char *fields_of(const stream *s) {
  const ptrdiff_t *table = s ? *(const ptrdiff_t *const *)s : NULL;
  return table ? (char *)(uintptr_t)s + table[-3] : NULL;
}
static bool is_standard(const char *fields) {
  if (unsynchronized) return false;
  const stream *standard[] = {&_ZSt3cin, &_ZSt4cout, &_ZSt4cerr, &_ZSt4clog};
  for (size_t i = 0; i < sizeof standard / sizeof *standard; i++)
    if (fields == fields_of(standard[i])) return true;
  return false;
}
static void use_fields(const char *fields, enum access kind, uintptr_t place) {
  if (is_standard(fields)) tell(fields + FORMAT, FORMAT_BYTES, ACCESS_READ, place);
  else tell(fields, ALL_BYTES, kind, place);
}
static void use(const stream *s, uintptr_t place) { use_fields(fields_of(s), ACCESS_WRITE, place); }

static void read_string(const struct string *s, uintptr_t place) {
  tell(s, offsetof(struct string, own), ACCESS_READ, place);
  tell(s->data, s->length, ACCESS_READ, place);
}
static void wrote_string(const struct string *s, uintptr_t place) {
  tell(s, offsetof(struct string, own), ACCESS_WRITE, place);
  tell(s->data, s->length + 1, ACCESS_WRITE, place);
}

/* The library's function, and a wrapper of it: what is told before the call, and behind it. (A stream's buffer may be the program's.) */
#define LIBRARY(result, name, parameters, arguments, before, behind) \
  extern result name parameters __attribute__((weak));               \
  result TELLS(name) parameters;                                     \
  __attribute__((weak)) result TELLS(name) parameters {              \
    before;                                                          \
    const struct cilkcheck_site *kept = __cilkcheck_place;           \
    result value = name arguments;                                   \
    __cilkcheck_place = kept;                                        \
    behind;                                                          \
    return value;                                                    \
  }
#define LIBRARY_VOID(name, parameters, arguments, before, behind) \
  extern void name parameters __attribute__((weak));              \
  void TELLS(name) parameters;                                    \
  __attribute__((weak)) void TELLS(name) parameters {             \
    before;                                                       \
    const struct cilkcheck_site *kept = __cilkcheck_place;        \
    name arguments;                                               \
    __cilkcheck_place = kept;                                     \
    behind;                                                       \
  }

/* ---- output ---- */

#define PUTS(name, type) LIBRARY(stream *, name, (stream * s, type value_put), (s, value_put), use(s, PLACE), )
PUTS(_ZNSolsEb, bool)
PUTS(_ZNSolsEs, short)
PUTS(_ZNSolsEt, unsigned short)
PUTS(_ZNSolsEi, int)
PUTS(_ZNSolsEj, unsigned)
PUTS(_ZNSolsEl, long)
PUTS(_ZNSolsEm, unsigned long)
PUTS(_ZNSolsEx, long long)
PUTS(_ZNSolsEy, unsigned long long)
PUTS(_ZNSolsEf, float)
PUTS(_ZNSolsEd, double)
PUTS(_ZNSolsEe, long double)
PUTS(_ZNSolsEPKv, const void *)
PUTS(_ZNSolsEDn, void *)
PUTS(_ZNSo3putEc, int)
PUTS(_ZStlsISt11char_traitsIcEERSt13basic_ostreamIcT_ES5_c, int)
PUTS(_ZStlsISt11char_traitsIcEERSt13basic_ostreamIcT_ES5_a, int)
PUTS(_ZStlsISt11char_traitsIcEERSt13basic_ostreamIcT_ES5_h, int)
/* Manipulators: the function that is handed over is one of those below, or compiled. */
PUTS(_ZNSolsEPFRSoS_E, manipulator *)
#define MANIPULATES(name) LIBRARY(stream *, name, (stream * s), (s), use(s, PLACE), )
MANIPULATES(_ZSt4endlIcSt11char_traitsIcEERSt13basic_ostreamIT_T0_ES6_)
MANIPULATES(_ZSt4endsIcSt11char_traitsIcEERSt13basic_ostreamIT_T0_ES6_)
MANIPULATES(_ZSt5flushIcSt11char_traitsIcEERSt13basic_ostreamIT_T0_ES6_)
MANIPULATES(_ZNSo5flushEv)

#define PUTS_TEXT(name) \
  LIBRARY(stream *, name, (stream * s, const char *text), (s, text), use(s, PLACE); if (text) READ(text, strlen(text) + 1), )
PUTS_TEXT(_ZStlsISt11char_traitsIcEERSt13basic_ostreamIcT_ES5_PKc)
PUTS_TEXT(_ZStlsISt11char_traitsIcEERSt13basic_ostreamIcT_ES5_PKa)
PUTS_TEXT(_ZStlsISt11char_traitsIcEERSt13basic_ostreamIcT_ES5_PKh)
#define PUTS_BYTES(name) LIBRARY(stream *, name, (stream * s, const char *text, long bytes), (s, text, bytes), use(s, PLACE); READ(text, (size_t)bytes), )
PUTS_BYTES(_ZNSo5writeEPKcl)
PUTS_BYTES(_ZSt16__ostream_insertIcSt11char_traitsIcEERSt13basic_ostreamIT_T0_ES6_PKS3_l)
LIBRARY(stream *, _ZStlsIcSt11char_traitsIcESaIcEERSt13basic_ostreamIT_T0_ES7_RKNSt7__cxx1112basic_stringIS4_S5_T1_EE,
        (stream * s, const struct string *text), (s, text), use(s, PLACE); read_string(text, PLACE), )

/* Of the format, which is no input or output: written also in std::cout and its kin. */
#define FORMATS(name, type) LIBRARY(stream *, name, (stream * s, type value_put), (s, value_put), WRITE(fields_of(s) + FORMAT, FORMAT_BYTES), )
FORMATS(_ZStlsIcSt11char_traitsIcEERSt13basic_ostreamIT_T0_ES6_St5_Setw, int)
FORMATS(_ZStlsIcSt11char_traitsIcEERSt13basic_ostreamIT_T0_ES6_St13_Setprecision, int)
FORMATS(_ZStlsIcSt11char_traitsIcEERSt13basic_ostreamIT_T0_ES6_St8_SetfillIS3_E, int)
FORMATS(_ZStlsIcSt11char_traitsIcEERSt13basic_ostreamIT_T0_ES6_St8_Setbase, int)
/* std::hex and its kin are inline functions, which are compiled and seen. */
LIBRARY(stream *, _ZNSolsEPFRSt8ios_baseS0_E, (stream * s, void *(*manipulate)(void *)), (s, manipulate), , )

/* ---- input ---- */

#define GETS(name, type) LIBRARY(stream *, name, (stream * s, type * to), (s, to), use(s, PLACE), WRITE(to, sizeof *to))
GETS(_ZNSirsERb, bool)
GETS(_ZNSirsERs, short)
GETS(_ZNSirsERt, unsigned short)
GETS(_ZNSirsERi, int)
GETS(_ZNSirsERj, unsigned)
GETS(_ZNSirsERl, long)
GETS(_ZNSirsERm, unsigned long)
GETS(_ZNSirsERx, long long)
GETS(_ZNSirsERy, unsigned long long)
GETS(_ZNSirsERf, float)
GETS(_ZNSirsERd, double)
GETS(_ZNSirsERe, long double)
GETS(_ZNSirsERPv, void *)
GETS(_ZNSi3getERc, char)
GETS(_ZStrsIcSt11char_traitsIcEERSt13basic_istreamIT_T0_ES6_RS3_, char)
MANIPULATES(_ZNSi6ignoreEv)
MANIPULATES(_ZNSi5ungetEv)
MANIPULATES(_ZSt2wsIcSt11char_traitsIcEERSt13basic_istreamIT_T0_ES6_)
LIBRARY(stream *, _ZNSi6ignoreEl, (stream * s, long count), (s, count), use(s, PLACE), )
LIBRARY(stream *, _ZNSi6ignoreEli, (stream * s, long count, int end), (s, count, end), use(s, PLACE), )
LIBRARY(stream *, _ZNSi7putbackEc, (stream * s, int c), (s, c), use(s, PLACE), )
LIBRARY(stream *, _ZNSirsEPFRSiS_E, (stream * s, manipulator *manipulate), (s, manipulate), use(s, PLACE), )
LIBRARY(int, _ZNSi3getEv, (stream * s), (s), use(s, PLACE), )
LIBRARY(int, _ZNSi4peekEv, (stream * s), (s), use(s, PLACE), )
/* The number of bytes that came is behind the stream's virtual table. */
LIBRARY(stream *, _ZNSi4readEPcl, (stream * s, char *to, long room), (s, to, room), use(s, PLACE), WRITE(to, ((const size_t *)s)[1]))
#define GETS_STRING(name, parameters, arguments) \
  LIBRARY(stream *, name, parameters, arguments, use(s, PLACE); READ(to, offsetof(struct string, own)), wrote_string(to, PLACE))
GETS_STRING(_ZStrsIcSt11char_traitsIcESaIcEERSt13basic_istreamIT_T0_ES7_RNSt7__cxx1112basic_stringIS4_S5_T1_EE,
            (stream * s, struct string *to), (s, to))
GETS_STRING(_ZSt7getlineIcSt11char_traitsIcESaIcEERSt13basic_istreamIT_T0_ES7_RNSt7__cxx1112basic_stringIS4_S5_T1_EE,
            (stream * s, struct string *to), (s, to))
GETS_STRING(_ZSt7getlineIcSt11char_traitsIcESaIcEERSt13basic_istreamIT_T0_ES7_RNSt7__cxx1112basic_stringIS4_S5_T1_EES4_,
            (stream * s, struct string *to, int end), (s, to, end))

/* ---- positions ---- */

struct position { long offset, state; };
#define SEEKS(kind, get)                                                                                                               \
  LIBRARY(struct position, _ZNS##kind##5tell##get##Ev, (stream * s), (s), use(s, PLACE), )                                             \
  LIBRARY(stream *, _ZNS##kind##5seek##get##ESt4fposI11__mbstate_tE, (stream * s, struct position to), (s, to), use(s, PLACE), )       \
  LIBRARY(stream *, _ZNS##kind##5seek##get##ElSt12_Ios_Seekdir, (stream * s, long offset, int from), (s, offset, from), use(s, PLACE), )
SEEKS(i, g)
SEEKS(o, p)

/* ---- std::ios: `fields` is the object itself ---- */

#define ASKS(result, name) LIBRARY(result, name, (const char *fields), (fields), use_fields(fields, ACCESS_READ, PLACE), )
ASKS(bool, _ZNKSt9basic_iosIcSt11char_traitsIcEE3eofEv)
ASKS(bool, _ZNKSt9basic_iosIcSt11char_traitsIcEE3badEv)
ASKS(bool, _ZNKSt9basic_iosIcSt11char_traitsIcEE4failEv)
ASKS(bool, _ZNKSt9basic_iosIcSt11char_traitsIcEE4goodEv)
ASKS(bool, _ZNKSt9basic_iosIcSt11char_traitsIcEEcvbEv)
ASKS(bool, _ZNKSt9basic_iosIcSt11char_traitsIcEEntEv)
ASKS(int, _ZNKSt9basic_iosIcSt11char_traitsIcEE7rdstateEv)
ASKS(void *, _ZNKSt9basic_iosIcSt11char_traitsIcEE5rdbufEv)
ASKS(void *, _ZNKSt9basic_iosIcSt11char_traitsIcEE3tieEv)
LIBRARY_VOID(_ZNSt9basic_iosIcSt11char_traitsIcEE5clearESt12_Ios_Iostate, (char *fields, int state), (fields, state), use_fields(fields, ACCESS_WRITE, PLACE), )
LIBRARY_VOID(_ZNSt9basic_iosIcSt11char_traitsIcEE8setstateESt12_Ios_Iostate, (char *fields, int state), (fields, state), use_fields(fields, ACCESS_WRITE, PLACE), )
#define COPIES_FORMAT(name)                                                                                             \
  LIBRARY(char *, name, (char *fields, const char *other), (fields, other), use_fields(other, ACCESS_READ, PLACE);       \
          is_standard(fields) ? WRITE(fields + FORMAT, FORMAT_BYTES) : WRITE(fields, ALL_BYTES), )
COPIES_FORMAT(_ZNSt9basic_iosIcSt11char_traitsIcEE7copyfmtERKS2_)
COPIES_FORMAT(_ZNSt9basic_iosIwSt11char_traitsIwEE7copyfmtERKS2_)
LIBRARY(stream *, _ZNSt9basic_iosIcSt11char_traitsIcEE3tieEPSo, (char *fields, stream *other), (fields, other), WRITE(fields, ALL_BYTES), )
extern bool _ZNSt8ios_base15sync_with_stdioEb(bool on) __attribute__((weak));
WRAPPER(bool, _ZNSt8ios_base15sync_with_stdioEb, bool on) {
  unsynchronized = !on;                          /* then the standard promises nothing of std::cin and its kin */
  return _ZNSt8ios_base15sync_with_stdioEb(on);
}

/* ---- streams on strings and on files: made, asked, unmade ---- */

#define MADE use(s, PLACE)
#define STRING_STREAM(name)                                                                                                        \
  LIBRARY_VOID(_ZNSt7__cxx11##name##IcSt11char_traitsIcESaIcEEC1Ev, (stream * s), (s), , MADE)                                     \
  LIBRARY_VOID(_ZNSt7__cxx11##name##IcSt11char_traitsIcESaIcEEC1ESt13_Ios_Openmode, (stream * s, int mode), (s, mode), , MADE)     \
  LIBRARY_VOID(_ZNSt7__cxx11##name##IcSt11char_traitsIcESaIcEEC1ERKNS_12basic_stringIcS2_S3_EESt13_Ios_Openmode,                   \
               (stream * s, const struct string *text, int mode), (s, text, mode), read_string(text, PLACE), MADE)                 \
  LIBRARY_VOID(_ZNSt7__cxx11##name##IcSt11char_traitsIcESaIcEED1Ev, (stream * s), (s), MADE, )                                     \
  LIBRARY_VOID(_ZNSt7__cxx11##name##IcSt11char_traitsIcESaIcEE3strERKNS_12basic_stringIcS2_S3_EE,                                  \
               (stream * s, const struct string *text), (s, text), use(s, PLACE); read_string(text, PLACE), )                      \
  LIBRARY(struct string *, _ZNKSt7__cxx11##name##IcSt11char_traitsIcESaIcEE3strEv, (struct string * result, const stream *s),      \
          (result, s), use_fields(fields_of(s), ACCESS_READ, PLACE), wrote_string(result, PLACE))
STRING_STREAM(18basic_stringstream)
STRING_STREAM(19basic_istringstream)
STRING_STREAM(19basic_ostringstream)

#define FILE_STREAM(name)                                                                                                            \
  LIBRARY_VOID(_ZNSt##name##IcSt11char_traitsIcEEC1Ev, (stream * s), (s), , MADE)                                                    \
  LIBRARY_VOID(_ZNSt##name##IcSt11char_traitsIcEEC1EPKcSt13_Ios_Openmode, (stream * s, const char *path, int mode), (s, path, mode), \
               READ(path, strlen(path) + 1), MADE)                                                                                   \
  LIBRARY_VOID(_ZNSt##name##IcSt11char_traitsIcEEC1ERKNSt7__cxx1112basic_stringIcS1_SaIcEEESt13_Ios_Openmode,                        \
               (stream * s, const struct string *path, int mode), (s, path, mode), read_string(path, PLACE), MADE)                   \
  LIBRARY_VOID(_ZNSt##name##IcSt11char_traitsIcEED1Ev, (stream * s), (s), MADE, )                                                    \
  LIBRARY_VOID(_ZNSt##name##IcSt11char_traitsIcEE4openEPKcSt13_Ios_Openmode, (stream * s, const char *path, int mode),               \
               (s, path, mode), use(s, PLACE); READ(path, strlen(path) + 1), )                                                       \
  LIBRARY_VOID(_ZNSt##name##IcSt11char_traitsIcEE4openERKNSt7__cxx1112basic_stringIcS1_SaIcEEESt13_Ios_Openmode,                     \
               (stream * s, const struct string *path, int mode), (s, path, mode), use(s, PLACE); read_string(path, PLACE), )        \
  LIBRARY_VOID(_ZNSt##name##IcSt11char_traitsIcEE5closeEv, (stream * s), (s), use(s, PLACE), )                                       \
  LIBRARY(bool, _ZNSt##name##IcSt11char_traitsIcEE7is_openEv, (stream * s), (s), use_fields(fields_of(s), ACCESS_READ, PLACE), )     \
  LIBRARY(bool, _ZNKSt##name##IcSt11char_traitsIcEE7is_openEv, (stream * s), (s), use_fields(fields_of(s), ACCESS_READ, PLACE), )
FILE_STREAM(13basic_fstream)
FILE_STREAM(14basic_ifstream)
FILE_STREAM(14basic_ofstream)
