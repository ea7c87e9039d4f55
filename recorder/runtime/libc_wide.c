/* Wrappers of libc: strings of wide characters, and conversions between those and bytes. See libc.h. */
#define _GNU_SOURCE
#include "libc.h"
#include <stdlib.h>
#include <string.h>
#include <wchar.h>

DEFINE_STATE(multibyte);

#define WIDE(count) ((count) * sizeof(wchar_t))

size_t wide_string_read(const void *string, size_t most) {
  size_t length = wcsnlen(string, most);
  return length < most ? length + 1 : most;
}
static size_t up_to(const wchar_t *s, const wchar_t *found) { return WIDE(found ? (size_t)(found - s) + 1 : wcslen(s) + 1); }
static size_t compared(const wchar_t *a, const wchar_t *b, size_t most) {
  size_t i = 0;
  while (i < most) {
    i++;
    if (!a[i - 1] || a[i - 1] != b[i - 1]) break;
  }
  return WIDE(i);
}

WRAPPER(wchar_t *, wmemcpy, wchar_t *to, const wchar_t *from, size_t n) {
  READ(from, WIDE(n));
  WRITE(to, WIDE(n));
  return wmemcpy(to, from, n);
}
WRAPPER(wchar_t *, wmemmove, wchar_t *to, const wchar_t *from, size_t n) {
  READ(from, WIDE(n));
  WRITE(to, WIDE(n));
  return wmemmove(to, from, n);
}
WRAPPER(wchar_t *, wmempcpy, wchar_t *to, const wchar_t *from, size_t n) {
  READ(from, WIDE(n));
  WRITE(to, WIDE(n));
  return wmempcpy(to, from, n);
}
WRAPPER(wchar_t *, wmemset, wchar_t *at, wchar_t c, size_t n) {
  WRITE(at, WIDE(n));
  return wmemset(at, c, n);
}
WRAPPER(int, wmemcmp, const wchar_t *a, const wchar_t *b, size_t n) {
  READ(a, WIDE(n));
  READ(b, WIDE(n));
  return wmemcmp(a, b, n);
}
WRAPPER(wchar_t *, wmemchr, const wchar_t *at, wchar_t c, size_t n) {
  wchar_t *found = wmemchr(at, c, n);
  READ(at, found ? WIDE((size_t)(found - at) + 1) : WIDE(n));
  return found;
}
WRAPPER(size_t, wcslen, const wchar_t *s) {
  READ(s, WIDE(wcslen(s) + 1));
  return wcslen(s);
}
WRAPPER(size_t, wcsnlen, const wchar_t *s, size_t n) {
  READ(s, WIDE(wide_string_read(s, n)));
  return wcsnlen(s, n);
}
WRAPPER(wchar_t *, wcscpy, wchar_t *to, const wchar_t *from) {
  READ(from, WIDE(wcslen(from) + 1));
  WRITE(to, WIDE(wcslen(from) + 1));
  return wcscpy(to, from);
}
WRAPPER(wchar_t *, wcpcpy, wchar_t *to, const wchar_t *from) {
  READ(from, WIDE(wcslen(from) + 1));
  WRITE(to, WIDE(wcslen(from) + 1));
  return wcpcpy(to, from);
}
WRAPPER(wchar_t *, wcsncpy, wchar_t *to, const wchar_t *from, size_t n) {
  READ(from, WIDE(wide_string_read(from, n)));
  WRITE(to, WIDE(n));
  return wcsncpy(to, from, n);
}
WRAPPER(wchar_t *, wcscat, wchar_t *to, const wchar_t *from) {
  size_t end = wcslen(to);
  READ(to, WIDE(end + 1));
  READ(from, WIDE(wcslen(from) + 1));
  WRITE(to + end, WIDE(wcslen(from) + 1));
  return wcscat(to, from);
}
WRAPPER(wchar_t *, wcsncat, wchar_t *to, const wchar_t *from, size_t n) {
  size_t end = wcslen(to);
  READ(to, WIDE(end + 1));
  READ(from, WIDE(wide_string_read(from, n)));
  WRITE(to + end, WIDE(wcsnlen(from, n) + 1));
  return wcsncat(to, from, n);
}
WRAPPER(int, wcscmp, const wchar_t *a, const wchar_t *b) {
  size_t bytes = compared(a, b, SIZE_MAX);
  READ(a, bytes);
  READ(b, bytes);
  return wcscmp(a, b);
}
WRAPPER(int, wcsncmp, const wchar_t *a, const wchar_t *b, size_t most) {
  size_t bytes = compared(a, b, most);
  READ(a, bytes);
  READ(b, bytes);
  return wcsncmp(a, b, most);
}
WRAPPER(wchar_t *, wcschr, const wchar_t *s, wchar_t c) {
  wchar_t *found = wcschr(s, c);
  READ(s, up_to(s, found));
  return found;
}
WRAPPER(wchar_t *, wcsrchr, const wchar_t *s, wchar_t c) {
  READ(s, WIDE(wcslen(s) + 1));
  return wcsrchr(s, c);
}
WRAPPER(wchar_t *, wcsstr, const wchar_t *hay, const wchar_t *needle) {
  wchar_t *found = wcsstr(hay, needle);
  READ(needle, WIDE(wcslen(needle) + 1));
  READ(hay, found ? WIDE((size_t)(found - hay) + wcslen(needle)) : WIDE(wcslen(hay) + 1));
  return found;
}
WRAPPER(wchar_t *, wcsdup, const wchar_t *s) {
  size_t bytes = WIDE(wcslen(s) + 1);
  READ(s, bytes);
  wchar_t *copy = plain_malloc(bytes);
  if (!copy) return NULL;
  heap_made(copy, bytes, PLACE);
  WRITE(copy, bytes);
  return memcpy(copy, s, bytes);
}

/* ---- bytes and wide characters ---- */

WRAPPER(size_t, mbstowcs, wchar_t *to, const char *from, size_t n) {
  READ_STATE(locale);
  READ_STRING(from);
  size_t length = mbstowcs(to, from, n);
  if (to && length != (size_t)-1) WRITE(to, WIDE(length < n ? length + 1 : n));
  return length;
}
WRAPPER(size_t, wcstombs, char *to, const wchar_t *from, size_t n) {
  READ_STATE(locale);
  READ(from, WIDE(wcslen(from) + 1));
  size_t length = wcstombs(to, from, n);
  if (to && length != (size_t)-1) WRITE(to, length < n ? length + 1 : n);
  return length;
}
/* Without a state of the caller's they share one of libc's. */
static void use_shift_state(mbstate_t *state, uintptr_t place) {
  if (state) {
    tell(state, sizeof *state, ACCESS_READ, place);
    tell(state, sizeof *state, ACCESS_WRITE, place);
  } else {
    tell(&STATE_NAME(multibyte), sizeof(uint32_t), ACCESS_WRITE, place);
  }
}
WRAPPER(size_t, mbrtowc, wchar_t *to, const char *from, size_t n, mbstate_t *state) {
  READ_STATE(locale);
  use_shift_state(state, PLACE);
  size_t taken = mbrtowc(to, from, n, state);
  bool whole = taken != (size_t)-1 && taken != (size_t)-2;
  if (from) READ(from, whole ? (taken ? taken : 1) : n);
  if (whole) WRITE_IF(to);
  return taken;
}
WRAPPER(size_t, wcrtomb, char *to, wchar_t c, mbstate_t *state) {
  READ_STATE(locale);
  use_shift_state(state, PLACE);
  size_t given = wcrtomb(to, c, state);
  if (to && given != (size_t)-1) WRITE(to, given);
  return given;
}
WRAPPER(int, mbtowc, wchar_t *to, const char *from, size_t n) {
  READ_STATE(locale);
  WRITE_STATE(multibyte);
  int taken = mbtowc(to, from, n);
  if (from) READ(from, taken > 0 ? (size_t)taken : taken == 0 && n ? 1 : n);
  if (from && taken >= 0) WRITE_IF(to);
  return taken;
}
WRAPPER(int, wctomb, char *to, wchar_t c) {
  READ_STATE(locale);
  WRITE_STATE(multibyte);
  int given = wctomb(to, c);
  if (to && given > 0) WRITE(to, (size_t)given);
  return given;
}
WRAPPER(int, mblen, const char *from, size_t n) {
  READ_STATE(locale);
  WRITE_STATE(multibyte);
  int taken = mblen(from, n);
  if (from) READ(from, taken > 0 ? (size_t)taken : taken == 0 && n ? 1 : n);
  return taken;
}
