/* Wrappers of libc: printf, scanf and their kin. See libc.h. The formats are read here to know the strings and results among the
   arguments. What is printed to one stream by two strands is locked by the stream: no race, though the order is not determined. */
#define _GNU_SOURCE
#include "libc.h"
#include <stdarg.h>
#include <stdio.h>
#include <stdlib.h>
#include <string.h>
#include <sys/types.h>
#include <wchar.h>

/* ---- one conversion of a format ---- */

enum length { LENGTH_NONE, LENGTH_CHAR, LENGTH_SHORT, LENGTH_LONG, LENGTH_LONG_LONG, LENGTH_LONG_DOUBLE, LENGTH_MAX, LENGTH_SIZE, LENGTH_DIFFERENCE };

static enum length read_length(const char **at) {
  const char *f = *at;
  enum length length = LENGTH_NONE;
  if (f[0] == 'h') length = f[1] == 'h' ? LENGTH_CHAR : LENGTH_SHORT;
  else if (f[0] == 'l') length = f[1] == 'l' ? LENGTH_LONG_LONG : LENGTH_LONG;
  else if (f[0] == 'q') length = LENGTH_LONG_LONG;
  else if (f[0] == 'L') length = LENGTH_LONG_DOUBLE;
  else if (f[0] == 'j') length = LENGTH_MAX;
  else if (f[0] == 'z' || f[0] == 'Z') length = LENGTH_SIZE;
  else if (f[0] == 't') length = LENGTH_DIFFERENCE;
  if (length != LENGTH_NONE) f += length == LENGTH_CHAR || (length == LENGTH_LONG_LONG && *f == 'l') ? 2 : 1;
  *at = f;
  return length;
}
static size_t integer_bytes(enum length length) {
  switch (length) {
  case LENGTH_CHAR: return sizeof(char);
  case LENGTH_SHORT: return sizeof(short);
  case LENGTH_NONE: return sizeof(int);
  default: return sizeof(long);                  /* long, long long, intmax_t, size_t and ptrdiff_t */
  }
}
static size_t floating_bytes(enum length length) {
  return length == LENGTH_LONG_DOUBLE || length == LENGTH_LONG_LONG ? sizeof(long double) : length == LENGTH_LONG ? sizeof(double) : sizeof(float);
}
/* Digits, of which there may be none (0). */
static size_t read_number(const char **at) {
  size_t n = 0;
  for (; **at >= '0' && **at <= '9'; ++*at) n = n * 10 + (size_t)(**at - '0');
  return n;
}
/* The `n$` of an argument that is named by its number, or 0. */
static size_t read_position(const char **at) {
  const char *f = *at;
  size_t n = read_number(&f);
  if (*f != '$' || !n) return 0;
  *at = f + 1;
  return n;
}

/* ---- printf ---- */

enum argument { ARGUMENT_NONE, ARGUMENT_INT, ARGUMENT_LONG, ARGUMENT_DOUBLE, ARGUMENT_LONG_DOUBLE, ARGUMENT_POINTER };
enum { MOST_ARGUMENTS = 128 };
/* What the conversions of one format take: the kinds of all arguments, and what is done with which of them. */
struct printing {
  size_t arguments, uses;
  enum argument kinds[MOST_ARGUMENTS];
  struct use { size_t argument, precision, precision_argument, result_bytes; bool wide; } use[MOST_ARGUMENTS];
};
#define NO_PRECISION SIZE_MAX

static size_t take(struct printing *p, size_t position, enum argument kind, uintptr_t place) {
  size_t at = position ? position - 1 : p->arguments;
  if (at >= MOST_ARGUMENTS) refuse(place, "a format with more than %d arguments", MOST_ARGUMENTS);
  if (at >= p->arguments) p->arguments = at + 1;
  p->kinds[at] = kind;
  return at;
}
/* A width or precision: digits, or an argument, whose number + 1 is given back in `argument`. */
static size_t read_width(struct printing *p, const char **at, size_t *argument, uintptr_t place) {
  *argument = 0;
  if (**at != '*') return read_number(at);
  ++*at;
  size_t position = read_position(at);
  *argument = take(p, position, ARGUMENT_INT, place) + 1;
  return 0;
}
static void use(struct printing *p, struct use use) {
  if (p->uses < MOST_ARGUMENTS) p->use[p->uses++] = use;
}
/* One conversion, behind its `%`. False where the letter is none that libc knows. */
static bool read_conversion(struct printing *p, const char **at, uintptr_t place) {
  const char *f = *at;
  size_t position = read_position(&f), precision = NO_PRECISION, width_argument, precision_argument = 0;
  f += strspn(f, "-+ #0'I");
  read_width(p, &f, &width_argument, place);
  if (*f == '.') {
    f++;
    if (*f == '-') { f++; read_number(&f); }     /* a negative precision is none */
    else precision = read_width(p, &f, &precision_argument, place);
  }
  enum length length = read_length(&f);
  char letter = *f ? *f++ : 0;
  *at = f;
  switch (letter) {
  case 'd': case 'i': case 'o': case 'u': case 'x': case 'X':
    take(p, position, integer_bytes(length) == sizeof(long) ? ARGUMENT_LONG : ARGUMENT_INT, place);
    return true;
  case 'c': case 'C':
    take(p, position, ARGUMENT_INT, place);
    return true;
  case 'e': case 'E': case 'f': case 'F': case 'g': case 'G': case 'a': case 'A':
    take(p, position, length == LENGTH_LONG_DOUBLE || length == LENGTH_LONG_LONG ? ARGUMENT_LONG_DOUBLE : ARGUMENT_DOUBLE, place);
    return true;
  case 's': case 'S':
    use(p, (struct use){take(p, position, ARGUMENT_POINTER, place), precision, precision_argument, 0, letter == 'S' || length == LENGTH_LONG});
    return true;
  case 'n':
    use(p, (struct use){take(p, position, ARGUMENT_POINTER, place), 0, 0, integer_bytes(length), false});
    return true;
  case 'p':
    take(p, position, ARGUMENT_POINTER, place);
    return true;
  case 'm': case '%': return true;
  default: return false;
  }
}

void tell_printf(const char *format, va_list given, uintptr_t place) {
  struct printing p = {.arguments = 0};
  tell(format, strlen(format) + 1, ACCESS_READ, place);
  tell(&STATE_NAME(locale), sizeof(uint32_t), ACCESS_READ, place);
  for (const char *f = format; (f = strchr(f, '%'));) {
    f++;
    if (read_conversion(&p, &f, place)) continue;
    note_unseen("a format of printf has a conversion that is not known: its strings are not seen");
    break;
  }
  const void *values[MOST_ARGUMENTS] = {NULL};
  int numbers[MOST_ARGUMENTS] = {0};
  va_list v;
  va_copy(v, given);
  for (size_t i = 0; i < p.arguments; i++)
    switch (p.kinds[i]) {
    case ARGUMENT_NONE: case ARGUMENT_INT: numbers[i] = va_arg(v, int); break;
    case ARGUMENT_LONG: (void)va_arg(v, long); break;
    case ARGUMENT_DOUBLE: (void)va_arg(v, double); break;
    case ARGUMENT_LONG_DOUBLE: (void)va_arg(v, long double); break;
    case ARGUMENT_POINTER: values[i] = va_arg(v, const void *); break;
    }
  va_end(v);
  for (size_t i = 0; i < p.uses; i++) {
    struct use *u = &p.use[i];
    const void *at = values[u->argument];
    size_t most = u->precision;
    if (u->precision_argument) most = numbers[u->precision_argument - 1] < 0 ? NO_PRECISION : (size_t)numbers[u->precision_argument - 1];
    if (!at) continue;                           /* printed as (null) */
    if (u->result_bytes) tell(at, u->result_bytes, ACCESS_WRITE, place);
    else if (u->wide) tell(at, wide_string_read(at, most) * sizeof(wchar_t), ACCESS_READ, place);
    else tell(at, string_read(at, most), ACCESS_READ, place);
  }
}

/* The body of a wrapper of a function with a format and `...`: its reads, and then `call` with the arguments as `v`. */
#define PRINT(format, call)            \
  va_list v;                           \
  va_start(v, format);                 \
  tell_printf(format, v, PLACE);       \
  int result = call;                   \
  va_end(v);                           \
  return result

WRAPPER(int, printf, const char *format, ...) { PRINT(format, vprintf(format, v)); }
WRAPPER(int, vprintf, const char *format, va_list v) {
  tell_printf(format, v, PLACE);
  return vprintf(format, v);
}
WRAPPER(int, fprintf, FILE *stream, const char *format, ...) {
  USE_STREAM(stream);
  PRINT(format, vfprintf(stream, format, v));
}
WRAPPER(int, vfprintf, FILE *stream, const char *format, va_list v) {
  USE_STREAM(stream);
  tell_printf(format, v, PLACE);
  return vfprintf(stream, format, v);
}
WRAPPER(int, dprintf, int file, const char *format, ...) { PRINT(format, vdprintf(file, format, v)); }
WRAPPER(int, vdprintf, int file, const char *format, va_list v) {
  tell_printf(format, v, PLACE);
  return vdprintf(file, format, v);
}

/* Into memory: the text, cut at `room`, and its NUL. */
static int print_into(char *to, size_t room, const char *format, va_list v, uintptr_t place) {
  tell_printf(format, v, place);
  int length = vsnprintf(to, room, format, v);
  if (length >= 0) tell(to, (size_t)length < room ? (size_t)length + 1 : room, ACCESS_WRITE, place);
  return length;
}
static int print_unbounded(char *to, const char *format, va_list v, uintptr_t place) {
  tell_printf(format, v, place);
  int length = vsprintf(to, format, v);
  if (length >= 0) tell(to, (size_t)length + 1, ACCESS_WRITE, place);
  return length;
}
static int print_allocated(char **to, const char *format, va_list v, uintptr_t place) {
  tell_printf(format, v, place);
  char *text = NULL;
  int length = vasprintf(&text, format, v);
  if (length < 0) return length;
  char *block = plain_malloc((size_t)length + 1);
  memcpy(block, text, (size_t)length + 1);
  free(text);
  heap_made(block, (size_t)length + 1, place);
  tell(block, (size_t)length + 1, ACCESS_WRITE, place);
  tell(to, sizeof *to, ACCESS_WRITE, place);
  *to = block;
  return length;
}
#define PASS(format, call) \
  va_list v;               \
  va_start(v, format);     \
  int result = call;       \
  va_end(v);               \
  return result

WRAPPER(int, snprintf, char *to, size_t room, const char *format, ...) { PASS(format, print_into(to, room, format, v, PLACE)); }
WRAPPER(int, vsnprintf, char *to, size_t room, const char *format, va_list v) { return print_into(to, room, format, v, PLACE); }
WRAPPER(int, sprintf, char *to, const char *format, ...) { PASS(format, print_unbounded(to, format, v, PLACE)); }
WRAPPER(int, vsprintf, char *to, const char *format, va_list v) { return print_unbounded(to, format, v, PLACE); }
WRAPPER(int, asprintf, char **to, const char *format, ...) { PASS(format, print_allocated(to, format, v, PLACE)); }
WRAPPER(int, vasprintf, char **to, const char *format, va_list v) { return print_allocated(to, format, v, PLACE); }

/* The checked variants: `flag` forbids %n in writable formats, `size` is the target's. */
static int check_room(size_t room, size_t size, uintptr_t place) {
  if (room > size) refuse(place, "a printf is told that its buffer has %zu bytes, and it has %zu", room, size);
  return 0;
}
static int print_checked(char *to, size_t size, const char *format, va_list v, uintptr_t place) {
  if (size == SIZE_MAX) return print_unbounded(to, format, v, place);
  int length = print_into(to, size, format, v, place);
  if (length >= 0 && (size_t)length >= size) refuse(place, "a sprintf writes %d bytes into a buffer of %zu", length + 1, size);
  return length;
}
WRAPPER(int, __printf_chk, int flag, const char *format, ...) {
  (void)flag;
  PRINT(format, vprintf(format, v));
}
WRAPPER(int, __vprintf_chk, int flag, const char *format, va_list v) {
  (void)flag;
  tell_printf(format, v, PLACE);
  return vprintf(format, v);
}
WRAPPER(int, __fprintf_chk, FILE *stream, int flag, const char *format, ...) {
  (void)flag;
  USE_STREAM(stream);
  PRINT(format, vfprintf(stream, format, v));
}
WRAPPER(int, __vfprintf_chk, FILE *stream, int flag, const char *format, va_list v) {
  (void)flag;
  USE_STREAM(stream);
  tell_printf(format, v, PLACE);
  return vfprintf(stream, format, v);
}
WRAPPER(int, __dprintf_chk, int file, int flag, const char *format, ...) {
  (void)flag;
  PRINT(format, vdprintf(file, format, v));
}
WRAPPER(int, __snprintf_chk, char *to, size_t room, int flag, size_t size, const char *format, ...) {
  (void)flag;
  check_room(room, size, PLACE);
  PASS(format, print_into(to, room, format, v, PLACE));
}
WRAPPER(int, __vsnprintf_chk, char *to, size_t room, int flag, size_t size, const char *format, va_list v) {
  (void)flag;
  check_room(room, size, PLACE);
  return print_into(to, room, format, v, PLACE);
}
WRAPPER(int, __sprintf_chk, char *to, int flag, size_t size, const char *format, ...) {
  (void)flag;
  PASS(format, print_checked(to, size, format, v, PLACE));
}
WRAPPER(int, __vsprintf_chk, char *to, int flag, size_t size, const char *format, va_list v) {
  (void)flag;
  return print_checked(to, size, format, v, PLACE);
}
WRAPPER(int, __asprintf_chk, char **to, int flag, const char *format, ...) {
  (void)flag;
  PASS(format, print_allocated(to, format, v, PLACE));
}
WRAPPER(int, __vasprintf_chk, char **to, int flag, const char *format, va_list v) {
  (void)flag;
  return print_allocated(to, format, v, PLACE);
}

/* ---- scanf ---- */

/* Behind the call: the items that were assigned are those of the first `assigned` conversions that assign. */
void tell_scanf(const char *format, va_list given, int assigned, uintptr_t place) {
  va_list v;
  va_copy(v, given);
  for (const char *f = format; (f = strchr(f, '%')) && assigned >= 0;) {
    f++;
    if (*f == '%') { f++; continue; }
    if (read_position(&f)) refuse(place, "a scanf with numbered arguments");
    bool ignored = false, allocated = false;
    for (; *f == '*' || *f == '\'' || *f == 'I'; f++) ignored |= *f == '*';
    size_t width = read_number(&f);
    if (*f == 'm') { allocated = true; f++; }
    enum length length = read_length(&f);
    char letter = *f ? *f++ : 0;
    if (letter == '[') {
      if (*f == '^') f++;
      if (*f == ']') f++;
      f += strcspn(f, "]");
      if (*f) f++;
    }
    if (ignored) continue;
    void *at = va_arg(v, void *);
    if (letter == 'n') {                         /* not counted; written where all before it was matched, of which this is what is known */
      tell(at, integer_bytes(length), ACCESS_WRITE, place);
      continue;
    }
    if (--assigned < 0) break;
    bool wide = length == LENGTH_LONG || letter == 'S' || letter == 'C';
    size_t unit = wide ? sizeof(wchar_t) : 1, bytes = 0;
    char *text = allocated ? *(char **)at : at;
    switch (letter) {
    case 'd': case 'i': case 'o': case 'u': case 'x': case 'X': bytes = integer_bytes(length); break;
    case 'p': bytes = sizeof(void *); break;
    case 'e': case 'E': case 'f': case 'F': case 'g': case 'G': case 'a': case 'A': bytes = floating_bytes(length); break;
    case 'c': case 'C': bytes = (width ? width : 1) * unit; break;
    case 's': case 'S': case '[': bytes = wide ? (wcslen((wchar_t *)(void *)text) + 1) * unit : strlen(text) + 1; break;
    default: note_unseen("a format of scanf has a conversion that is not known: its results are not seen"); va_end(v); return;
    }
    if (allocated) {                             /* libc's block becomes one of the program's */
      char *block = plain_malloc(bytes);
      memcpy(block, text, bytes);
      free(text);
      heap_made(block, bytes, place);
      *(char **)at = block;
      tell(at, sizeof(char *), ACCESS_WRITE, place);
      text = block;
    }
    tell(text, bytes, ACCESS_WRITE, place);
  }
  va_end(v);
}

/* libc reads the whole of a string that it scans, to know its length. */
static int scan_string(const char *from, const char *format, va_list v, uintptr_t place) {
  tell(from, strlen(from) + 1, ACCESS_READ, place);
  tell(format, strlen(format) + 1, ACCESS_READ, place);
  tell(&STATE_NAME(locale), sizeof(uint32_t), ACCESS_READ, place);
  va_list again;
  va_copy(again, v);
  int assigned = vsscanf(from, format, v);
  tell_scanf(format, again, assigned, place);
  va_end(again);
  return assigned;
}
static int scan_stream(FILE *stream, const char *format, va_list v, uintptr_t place) {
  tell(stream, sizeof(uint32_t), ACCESS_READ, place);
  tell(format, strlen(format) + 1, ACCESS_READ, place);
  tell(&STATE_NAME(locale), sizeof(uint32_t), ACCESS_READ, place);
  va_list again;
  va_copy(again, v);
  int assigned = vfscanf(stream, format, v);
  tell_scanf(format, again, assigned, place);
  va_end(again);
  return assigned;
}
/* The names without __isoc99_ are those before C99, where %as, %aS and %a[ allocate. */
static const char *checked_format(const char *format, uintptr_t place) {
  if (strstr(format, "%as") || strstr(format, "%aS") || strstr(format, "%a[")) refuse(place, "a scanf of before C99 with %%as, %%aS or %%a[: use %%ms");
  return format;
}
#define AS_IT_IS(format, place) (format)
#define SCANS(prefix, check)                                                                                                                   \
  WRAPPER(int, prefix##scanf, const char *format, ...) { PASS(format, scan_stream(stdin, check(format, PLACE), v, PLACE)); }                   \
  WRAPPER(int, prefix##fscanf, FILE *stream, const char *format, ...) { PASS(format, scan_stream(stream, check(format, PLACE), v, PLACE)); }   \
  WRAPPER(int, prefix##sscanf, const char *from, const char *format, ...) { PASS(format, scan_string(from, check(format, PLACE), v, PLACE)); } \
  WRAPPER(int, prefix##vscanf, const char *format, va_list v) { return scan_stream(stdin, check(format, PLACE), v, PLACE); }                   \
  WRAPPER(int, prefix##vfscanf, FILE *stream, const char *format, va_list v) { return scan_stream(stream, check(format, PLACE), v, PLACE); }   \
  WRAPPER(int, prefix##vsscanf, const char *from, const char *format, va_list v) { return scan_string(from, check(format, PLACE), v, PLACE); }
SCANS(__isoc99_, AS_IT_IS)
SCANS(, checked_format)
