/* Wrappers of libc: memory and strings of bytes. See libc.h. */
#define _GNU_SOURCE
#include "libc.h"
#include <libgen.h>
#include <string.h>
#include <strings.h>
#include <unistd.h>
#undef basename
extern char *basename(const char *path) __asm__("basename");

DEFINE_STATE(strtok);

size_t string_read(const char *string, size_t most) {
  size_t length = strnlen(string, most);
  return length < most ? length + 1 : most;
}

/* ---- memory ---- */

WRAPPER(void *, memcpy, void *to, const void *from, size_t n) {
  READ(from, n);
  WRITE(to, n);
  return memcpy(to, from, n);
}
WRAPPER(void *, mempcpy, void *to, const void *from, size_t n) {
  READ(from, n);
  WRITE(to, n);
  return mempcpy(to, from, n);
}
WRAPPER(void *, memmove, void *to, const void *from, size_t n) {
  READ(from, n);
  WRITE(to, n);
  return memmove(to, from, n);
}
WRAPPER(void, bcopy, const void *from, void *to, size_t n) {
  READ(from, n);
  WRITE(to, n);
  memmove(to, from, n);
}
WRAPPER(void *, memccpy, void *to, const void *from, int c, size_t n) {
  const char *last = memchr(from, c, n);
  size_t copied = last ? (size_t)(last + 1 - (const char *)from) : n;
  READ(from, copied);
  WRITE(to, copied);
  return memccpy(to, from, c, n);
}
WRAPPER(void *, memset, void *at, int c, size_t n) {
  WRITE(at, n);
  return memset(at, c, n);
}
WRAPPER(void, bzero, void *at, size_t n) {
  WRITE(at, n);
  memset(at, 0, n);
}
WRAPPER(void, explicit_bzero, void *at, size_t n) {
  WRITE(at, n);
  explicit_bzero(at, n);
}
WRAPPER(void *, memset_explicit, void *at, int c, size_t n) {
  WRITE(at, n);
  return memset(at, c, n);
}
WRAPPER(int, memcmp, const void *a, const void *b, size_t n) {
  READ(a, n);
  READ(b, n);
  return memcmp(a, b, n);
}
WRAPPER(int, bcmp, const void *a, const void *b, size_t n) {
  READ(a, n);
  READ(b, n);
  return memcmp(a, b, n);
}
/* memchr reads as if byte by byte, and stops at the first that matches. */
WRAPPER(void *, memchr, const void *at, int c, size_t n) {
  char *found = memchr(at, c, n);
  READ(at, found ? (size_t)(found + 1 - (const char *)at) : n);
  return found;
}
WRAPPER(void *, rawmemchr, const void *at, int c) {
  char *found = rawmemchr(at, c);
  READ(at, (size_t)(found + 1 - (const char *)at));
  return found;
}
WRAPPER(void *, memrchr, const void *at, int c, size_t n) {
  char *found = memrchr(at, c, n);
  size_t skipped = found ? (size_t)(found - (const char *)at) : 0;
  READ((const char *)at + skipped, n - skipped);
  return found;
}
WRAPPER(void *, memmem, const void *hay, size_t hay_bytes, const void *needle, size_t needle_bytes) {
  char *found = memmem(hay, hay_bytes, needle, needle_bytes);
  READ(needle, needle_bytes);
  READ(hay, found ? (size_t)(found - (const char *)hay) + needle_bytes : hay_bytes);
  return found;
}
WRAPPER(void, swab, const void *from, void *to, ssize_t n) {
  size_t whole = n > 0 ? (size_t)n & ~(size_t)1 : 0;
  READ(from, whole);
  WRITE(to, whole);
  swab(from, to, n);
}

/* ---- lengths and copies ---- */

WRAPPER(size_t, strlen, const char *s) {
  size_t length = strlen(s);
  READ(s, length + 1);
  return length;
}
WRAPPER(size_t, strnlen, const char *s, size_t n) {
  READ(s, string_read(s, n));
  return strnlen(s, n);
}
WRAPPER(char *, strcpy, char *to, const char *from) {
  size_t bytes = strlen(from) + 1;
  READ(from, bytes);
  WRITE(to, bytes);
  return strcpy(to, from);
}
WRAPPER(char *, stpcpy, char *to, const char *from) {
  size_t bytes = strlen(from) + 1;
  READ(from, bytes);
  WRITE(to, bytes);
  return stpcpy(to, from);
}
WRAPPER(char *, strncpy, char *to, const char *from, size_t n) {
  READ(from, string_read(from, n));
  WRITE(to, n);                                  /* the rest of the n bytes is filled with NUL */
  return strncpy(to, from, n);
}
WRAPPER(char *, stpncpy, char *to, const char *from, size_t n) {
  READ(from, string_read(from, n));
  WRITE(to, n);
  return stpncpy(to, from, n);
}
WRAPPER(char *, strcat, char *to, const char *from) {
  size_t end = strlen(to), bytes = strlen(from) + 1;
  READ(to, end + 1);
  READ(from, bytes);
  WRITE(to + end, bytes);
  return strcat(to, from);
}
WRAPPER(char *, strncat, char *to, const char *from, size_t n) {
  size_t end = strlen(to);
  READ(to, end + 1);
  READ(from, string_read(from, n));
  WRITE(to + end, strnlen(from, n) + 1);
  return strncat(to, from, n);
}
static char *duplicate(const char *s, size_t length, uintptr_t place) {
  char *copy = plain_malloc(length + 1);
  if (!copy) return NULL;
  heap_made(copy, length + 1, place);
  tell(copy, length + 1, ACCESS_WRITE, place);
  memcpy(copy, s, length);
  copy[length] = 0;
  return copy;
}
WRAPPER(char *, strdup, const char *s) {
  READ_STRING(s);
  return duplicate(s, strlen(s), PLACE);
}
WRAPPER(char *, __strdup, const char *s) {
  READ_STRING(s);
  return duplicate(s, strlen(s), PLACE);
}
WRAPPER(char *, strndup, const char *s, size_t n) {
  READ(s, string_read(s, n));
  return duplicate(s, strnlen(s, n), PLACE);
}
WRAPPER(char *, __strndup, const char *s, size_t n) {
  READ(s, string_read(s, n));
  return duplicate(s, strnlen(s, n), PLACE);
}

/* ---- comparisons: both strings are read up to the first difference or the end ---- */

static size_t compared(const char *a, const char *b, size_t n, int fold(int)) {
  size_t i = 0;
  while (i < n) {
    unsigned char x = (unsigned char)a[i], y = (unsigned char)b[i];
    i++;
    if (!x || (x != y && (!fold || fold(x) != fold(y)))) break;
  }
  return i;
}
static int lower(int c) { return c >= 'A' && c <= 'Z' ? c + ('a' - 'A') : c; }

WRAPPER(int, strcmp, const char *a, const char *b) {
  size_t n = compared(a, b, SIZE_MAX, NULL);
  READ(a, n);
  READ(b, n);
  return strcmp(a, b);
}
WRAPPER(int, strncmp, const char *a, const char *b, size_t most) {
  size_t n = compared(a, b, most, NULL);
  READ(a, n);
  READ(b, n);
  return strncmp(a, b, most);
}
WRAPPER(int, strcasecmp, const char *a, const char *b) {
  size_t n = compared(a, b, SIZE_MAX, lower);
  READ_STATE(locale);
  READ(a, n);
  READ(b, n);
  return strcasecmp(a, b);
}
WRAPPER(int, strncasecmp, const char *a, const char *b, size_t most) {
  size_t n = compared(a, b, most, lower);
  READ_STATE(locale);
  READ(a, n);
  READ(b, n);
  return strncasecmp(a, b, most);
}
WRAPPER(int, strcoll, const char *a, const char *b) {
  READ_STATE(locale);
  READ_STRING(a);
  READ_STRING(b);
  return strcoll(a, b);
}
WRAPPER(size_t, strxfrm, char *to, const char *from, size_t n) {
  READ_STATE(locale);
  READ_STRING(from);
  size_t length = strxfrm(to, from, n);
  WRITE(to, length < n ? length + 1 : n);
  return length;
}
WRAPPER(int, strverscmp, const char *a, const char *b) {
  size_t n = compared(a, b, SIZE_MAX, NULL);
  size_t digits_a = strspn(a + n - 1, "0123456789"), digits_b = strspn(b + n - 1, "0123456789");
  READ(a, a[n - 1] ? n + digits_a : n);          /* where numbers differ, both are read to their ends */
  READ(b, b[n - 1] ? n + digits_b : n);
  return strverscmp(a, b);
}

/* ---- searches ---- */

static size_t up_to(const char *s, const char *found) { return found ? (size_t)(found + 1 - s) : strlen(s) + 1; }

WRAPPER(char *, strchr, const char *s, int c) {
  char *found = strchr(s, c);
  READ(s, up_to(s, found));
  return found;
}
WRAPPER(char *, index, const char *s, int c) {
  char *found = strchr(s, c);
  READ(s, up_to(s, found));
  return found;
}
WRAPPER(char *, strchrnul, const char *s, int c) {
  char *found = strchrnul(s, c);
  READ(s, up_to(s, found));
  return found;
}
WRAPPER(char *, strrchr, const char *s, int c) {
  READ_STRING(s);
  return strrchr(s, c);
}
WRAPPER(char *, rindex, const char *s, int c) {
  READ_STRING(s);
  return strrchr(s, c);
}
WRAPPER(char *, strstr, const char *hay, const char *needle) {
  char *found = strstr(hay, needle);
  READ_STRING(needle);
  READ(hay, found ? (size_t)(found - hay) + strlen(needle) : strlen(hay) + 1);
  return found;
}
WRAPPER(char *, strcasestr, const char *hay, const char *needle) {
  char *found = strcasestr(hay, needle);
  READ_STATE(locale);
  READ_STRING(needle);
  READ(hay, found ? (size_t)(found - hay) + strlen(needle) : strlen(hay) + 1);
  return found;
}
WRAPPER(size_t, strspn, const char *s, const char *set) {
  size_t n = strspn(s, set);
  READ_STRING(set);
  READ(s, n + 1);
  return n;
}
WRAPPER(size_t, strcspn, const char *s, const char *set) {
  size_t n = strcspn(s, set);
  READ_STRING(set);
  READ(s, n + 1);
  return n;
}
WRAPPER(char *, strpbrk, const char *s, const char *set) {
  char *found = strpbrk(s, set);
  READ_STRING(set);
  READ(s, up_to(s, found));
  return found;
}

/* ---- words ---- */

/* A word is looked for from `from` on; it is ended by a NUL where another character ends it. */
static void tell_word(const char *from, const char *set, bool skip, uintptr_t place) {
  const char *begin = skip ? from + strspn(from, set) : from, *end = begin + strcspn(begin, set);
  tell(set, strlen(set) + 1, ACCESS_READ, place);
  tell(from, (size_t)(end + 1 - from), ACCESS_READ, place);
  if (*end) tell(end, 1, ACCESS_WRITE, place);
}
WRAPPER(char *, strtok, char *s, const char *set) {
  static char *rest;
  READ_STATE(strtok);
  WRITE_STATE(strtok);
  if (s || rest) tell_word(s ? s : rest, set, true, PLACE);
  return s || rest ? strtok_r(s, set, &rest) : NULL;
}
static char *next_word(char *s, const char *set, char **rest, uintptr_t place) {
  if (!s) tell(rest, sizeof *rest, ACCESS_READ, place);
  tell_word(s ? s : *rest, set, true, place);
  tell(rest, sizeof *rest, ACCESS_WRITE, place);
  return strtok_r(s, set, rest);
}
WRAPPER(char *, strtok_r, char *s, const char *set, char **rest) { return next_word(s, set, rest, PLACE); }
WRAPPER(char *, __strtok_r, char *s, const char *set, char **rest) { return next_word(s, set, rest, PLACE); }
WRAPPER(char *, strsep, char **rest, const char *set) {
  READ(rest, sizeof *rest);
  if (!*rest) return NULL;
  tell_word(*rest, set, false, PLACE);
  WRITE(rest, sizeof *rest);
  return strsep(rest, set);
}

/* ---- names of files and of errors ---- */

WRAPPER(char *, basename, const char *path) {
  READ_STRING(path);
  return basename(path);
}
/* dirname and POSIX's basename end the part by a NUL in place: what changed is what was written. */
static char *cut_path(char *cut(char *), char *path, uintptr_t place) {
  if (!path) return cut(path);
  size_t bytes = strlen(path) + 1;
  tell(path, bytes, ACCESS_READ, place);
  char *before = plain_malloc(bytes);
  memcpy(before, path, bytes);
  char *part = cut(path);
  for (size_t i = 0; i < bytes; i++)
    if (path[i] != before[i]) tell(path + i, 1, ACCESS_WRITE, place);
  plain_free(before);
  return part;
}
WRAPPER(char *, dirname, char *path) { return cut_path(dirname, path, PLACE); }
WRAPPER(char *, __xpg_basename, char *path) { return cut_path(__xpg_basename, path, PLACE); }
/* The text of a known error is a constant, so nothing is told of strerror; a buffer of the caller's is. */
extern int __xpg_strerror_r(int error, char *to, size_t n);
WRAPPER(int, __xpg_strerror_r, int error, char *to, size_t n) {
  int result = __xpg_strerror_r(error, to, n);
  if (n) WRITE(to, strnlen(to, n - 1) + 1);
  return result;
}
WRAPPER(char *, strerror_r, int error, char *to, size_t n) {
  char *text = strerror_r(error, to, n);
  if (text == to && n) WRITE(to, strlen(to) + 1);
  return text;
}

/* ---- the checked variants of _FORTIFY_SOURCE: the size of the target is known to suffice, else they end the program ---- */

WRAPPER(void *, __memcpy_chk, void *to, const void *from, size_t n, size_t room) {
  (void)room;
  READ(from, n);
  WRITE(to, n);
  extern void *__memcpy_chk(void *, const void *, size_t, size_t);
  return __memcpy_chk(to, from, n, room);
}
WRAPPER(void *, __mempcpy_chk, void *to, const void *from, size_t n, size_t room) {
  READ(from, n);
  WRITE(to, n);
  extern void *__mempcpy_chk(void *, const void *, size_t, size_t);
  return __mempcpy_chk(to, from, n, room);
}
WRAPPER(void *, __memmove_chk, void *to, const void *from, size_t n, size_t room) {
  READ(from, n);
  WRITE(to, n);
  extern void *__memmove_chk(void *, const void *, size_t, size_t);
  return __memmove_chk(to, from, n, room);
}
WRAPPER(void *, __memset_chk, void *at, int c, size_t n, size_t room) {
  WRITE(at, n);
  extern void *__memset_chk(void *, int, size_t, size_t);
  return __memset_chk(at, c, n, room);
}
WRAPPER(void, __explicit_bzero_chk, void *at, size_t n, size_t room) {
  WRITE(at, n);
  extern void __explicit_bzero_chk(void *, size_t, size_t);
  __explicit_bzero_chk(at, n, room);
}
WRAPPER(char *, __strcpy_chk, char *to, const char *from, size_t room) {
  READ_STRING(from);
  WRITE(to, strlen(from) + 1);
  extern char *__strcpy_chk(char *, const char *, size_t);
  return __strcpy_chk(to, from, room);
}
WRAPPER(char *, __stpcpy_chk, char *to, const char *from, size_t room) {
  READ_STRING(from);
  WRITE(to, strlen(from) + 1);
  extern char *__stpcpy_chk(char *, const char *, size_t);
  return __stpcpy_chk(to, from, room);
}
WRAPPER(char *, __strncpy_chk, char *to, const char *from, size_t n, size_t room) {
  READ(from, string_read(from, n));
  WRITE(to, n);
  extern char *__strncpy_chk(char *, const char *, size_t, size_t);
  return __strncpy_chk(to, from, n, room);
}
WRAPPER(char *, __stpncpy_chk, char *to, const char *from, size_t n, size_t room) {
  READ(from, string_read(from, n));
  WRITE(to, n);
  extern char *__stpncpy_chk(char *, const char *, size_t, size_t);
  return __stpncpy_chk(to, from, n, room);
}
WRAPPER(char *, __strcat_chk, char *to, const char *from, size_t room) {
  size_t end = strlen(to);
  READ(to, end + 1);
  READ_STRING(from);
  WRITE(to + end, strlen(from) + 1);
  extern char *__strcat_chk(char *, const char *, size_t);
  return __strcat_chk(to, from, room);
}
WRAPPER(char *, __strncat_chk, char *to, const char *from, size_t n, size_t room) {
  size_t end = strlen(to);
  READ(to, end + 1);
  READ(from, string_read(from, n));
  WRITE(to + end, strnlen(from, n) + 1);
  extern char *__strncat_chk(char *, const char *, size_t, size_t);
  return __strncat_chk(to, from, n, room);
}
