/* Wrappers of libc: time, environment, locale, and what the system says of itself. See libc.h. */
#define _GNU_SOURCE
#include "libc.h"
#include <getopt.h>
#include <locale.h>
#include <stdlib.h>
#include <string.h>
#include <sys/resource.h>
#include <sys/time.h>
#include <sys/times.h>
#include <sys/utsname.h>
#include <time.h>
#include <unistd.h>

DEFINE_STATE(environment);
DEFINE_STATE(locale);

/* ---- clocks ---- */

WRAPPER(time_t, time, time_t *to) {
  WRITE_IF(to);
  return time(to);
}
WRAPPER(int, gettimeofday, struct timeval *to, void *zone) {
  WRITE_IF(to);
  return gettimeofday(to, zone);
}
WRAPPER(int, clock_gettime, clockid_t clock, struct timespec *to) {
  WRITE(to, sizeof *to);
  return clock_gettime(clock, to);
}
WRAPPER(int, clock_getres, clockid_t clock, struct timespec *to) {
  WRITE_IF(to);
  return clock_getres(clock, to);
}
WRAPPER(int, timespec_get, struct timespec *to, int base) {
  WRITE(to, sizeof *to);
  return timespec_get(to, base);
}
WRAPPER(clock_t, times, struct tms *to) {
  WRITE_IF(to);
  return times(to);
}
WRAPPER(int, nanosleep, const struct timespec *wanted, struct timespec *left) {
  READ(wanted, sizeof *wanted);
  int result = nanosleep(wanted, left);
  if (result) WRITE_IF(left);
  return result;
}
WRAPPER(int, clock_nanosleep, clockid_t clock, int flags, const struct timespec *wanted, struct timespec *left) {
  READ(wanted, sizeof *wanted);
  int result = clock_nanosleep(clock, flags, wanted, left);
  if (result) WRITE_IF(left);
  return result;
}

/* ---- dates: what localtime, gmtime, ctime and asctime give back lies in libc, and is written by each of them ---- */

WRAPPER(struct tm *, localtime, const time_t *from) {
  READ(from, sizeof *from);
  READ_STATE(environment);                       /* TZ */
  struct tm *to = localtime(from);
  WRITE_IF(to);
  return to;
}
WRAPPER(struct tm *, gmtime, const time_t *from) {
  READ(from, sizeof *from);
  struct tm *to = gmtime(from);
  WRITE_IF(to);
  return to;
}
WRAPPER(struct tm *, localtime_r, const time_t *from, struct tm *to) {
  READ(from, sizeof *from);
  WRITE(to, sizeof *to);
  return localtime_r(from, to);
}
WRAPPER(struct tm *, gmtime_r, const time_t *from, struct tm *to) {
  READ(from, sizeof *from);
  WRITE(to, sizeof *to);
  return gmtime_r(from, to);
}
static time_t normalize(time_t make(struct tm *), struct tm *date, uintptr_t place) {
  tell(date, sizeof *date, ACCESS_READ, place);
  tell(date, sizeof *date, ACCESS_WRITE, place);
  tell(&STATE_NAME(environment), sizeof(uint32_t), ACCESS_READ, place);
  return make(date);
}
WRAPPER(time_t, mktime, struct tm *date) { return normalize(mktime, date, PLACE); }
WRAPPER(time_t, timelocal, struct tm *date) { return normalize(timelocal, date, PLACE); }
WRAPPER(time_t, timegm, struct tm *date) { return normalize(timegm, date, PLACE); }
WRAPPER(char *, asctime, const struct tm *date) {
  READ(date, sizeof *date);
  char *text = asctime(date);
  if (text) WRITE(text, strlen(text) + 1);
  return text;
}
WRAPPER(char *, asctime_r, const struct tm *date, char *to) {
  READ(date, sizeof *date);
  char *text = asctime_r(date, to);
  if (text) WRITE(text, strlen(text) + 1);
  return text;
}
WRAPPER(char *, ctime, const time_t *from) {
  READ(from, sizeof *from);
  READ_STATE(environment);
  struct tm *date = localtime(from);             /* ctime is asctime(localtime(from)) */
  WRITE_IF(date);
  char *text = date ? asctime(date) : NULL;
  if (text) WRITE(text, strlen(text) + 1);
  return text;
}
WRAPPER(char *, ctime_r, const time_t *from, char *to) {
  READ(from, sizeof *from);
  READ_STATE(environment);
  char *text = ctime_r(from, to);
  if (text) WRITE(text, strlen(text) + 1);
  return text;
}
WRAPPER(size_t, strftime, char *to, size_t room, const char *format, const struct tm *date) {
  READ_STRING(format);
  READ(date, sizeof *date);
  READ_STATE(locale);
  size_t length = strftime(to, room, format, date);
  if (length) WRITE(to, length + 1);
  return length;
}
/* Which fields are written depends on the format: those that differ after one of two calls into dates of our own. */
WRAPPER(char *, strptime, const char *from, const char *format, struct tm *to) {
  READ_STRING(format);
  READ_STATE(locale);
  struct tm zeros, ones, dates[2];
  memset(&zeros, 0, sizeof zeros);
  memset(&ones, 1, sizeof ones);
  dates[0] = zeros;
  dates[1] = ones;
  char *end = strptime(from, format, &dates[0]);
  strptime(from, format, &dates[1]);
  READ(from, end ? (size_t)(end - from) : strlen(from) + 1);
  for (size_t i = 0; i < sizeof *to; i++)
    if (((char *)&dates[0])[i] != ((char *)&zeros)[i] || ((char *)&dates[1])[i] != ((char *)&ones)[i]) WRITE((char *)to + i, 1);
  return strptime(from, format, to);
}
WRAPPER(void, tzset, void) {
  READ_STATE(environment);
  tzset();
}

/* ---- the environment ---- */

WRAPPER(char *, getenv, const char *name) {
  READ_STRING(name);
  READ_STATE(environment);
  return getenv(name);
}
WRAPPER(char *, secure_getenv, const char *name) {
  READ_STRING(name);
  READ_STATE(environment);
  return secure_getenv(name);
}
WRAPPER(int, setenv, const char *name, const char *value, int replace) {
  READ_STRING(name);
  READ_STRING(value);
  WRITE_STATE(environment);
  return setenv(name, value, replace);
}
WRAPPER(int, unsetenv, const char *name) {
  READ_STRING(name);
  WRITE_STATE(environment);
  return unsetenv(name);
}
WRAPPER(int, putenv, char *text) {
  READ_STRING(text);
  WRITE_STATE(environment);
  return putenv(text);
}
WRAPPER(int, clearenv, void) {
  WRITE_STATE(environment);
  return clearenv();
}

/* ---- options of the command: optind, optarg and optopt are variables of libc; words may change their places ---- */

enum { MOST_WORDS = 4096 };
static int next_option(int count, char *const *words, const char *letters, const struct option *options, int *index, int get(int, char *const *, const char *, const struct option *, int *),
                       uintptr_t place) {
  if (count > MOST_WORDS) refuse(place, "getopt of more than %d words", MOST_WORDS);
  char *before[MOST_WORDS];
  tell(letters, strlen(letters) + 1, ACCESS_READ, place);
  tell(&optind, sizeof optind, ACCESS_READ, place);
  for (int i = 0; i < count; i++) {
    before[i] = words[i];
    tell(&words[i], sizeof words[i], ACCESS_READ, place);
    if (i >= optind && words[i]) tell(words[i], strlen(words[i]) + 1, ACCESS_READ, place);
  }
  int found = get(count, words, letters, options, index);
  for (int i = 0; i < count; i++)
    if (words[i] != before[i]) tell(&words[i], sizeof words[i], ACCESS_WRITE, place);
  tell(&optind, sizeof optind, ACCESS_WRITE, place);
  tell(&optarg, sizeof optarg, ACCESS_WRITE, place);
  if (found == '?' || found == ':') tell(&optopt, sizeof optopt, ACCESS_WRITE, place);
  if (index && options && found != -1 && found != '?') tell(index, sizeof *index, ACCESS_WRITE, place);
  return found;
}
static int get_short(int count, char *const *words, const char *letters, const struct option *options, int *index) {
  (void)options;
  (void)index;
  return getopt(count, words, letters);
}
WRAPPER(int, getopt, int count, char *const *words, const char *letters) { return next_option(count, words, letters, NULL, NULL, get_short, PLACE); }
WRAPPER(int, getopt_long, int count, char *const *words, const char *letters, const struct option *options, int *index) {
  return next_option(count, words, letters, options, index, getopt_long, PLACE);
}
WRAPPER(int, getopt_long_only, int count, char *const *words, const char *letters, const struct option *options, int *index) {
  return next_option(count, words, letters, options, index, getopt_long_only, PLACE);
}

/* ---- the locale ---- */

WRAPPER(char *, setlocale, int category, const char *name) {
  if (name) {
    READ_STRING(name);
    WRITE_STATE(locale);
  } else {
    READ_STATE(locale);
  }
  return setlocale(category, name);
}
WRAPPER(struct lconv *, localeconv, void) {
  READ_STATE(locale);
  struct lconv *to = localeconv();
  WRITE(to, sizeof *to);
  return to;
}

/* ---- the system ---- */

WRAPPER(int, getrusage, int who, struct rusage *to) {
  int result = getrusage((__rusage_who_t)who, to);
  if (!result) WRITE(to, sizeof *to);
  return result;
}
WRAPPER(int, getrlimit, int resource, struct rlimit *to) {
  int result = getrlimit((__rlimit_resource_t)resource, to);
  if (!result) WRITE(to, sizeof *to);
  return result;
}
WRAPPER(int, setrlimit, int resource, const struct rlimit *from) {
  READ(from, sizeof *from);
  return setrlimit((__rlimit_resource_t)resource, from);
}
WRAPPER(int, uname, struct utsname *to) {
  int result = uname(to);
  if (!result) WRITE(to, sizeof *to);
  return result;
}
WRAPPER(int, gethostname, char *to, size_t room) {
  int result = gethostname(to, room);
  if (!result) WRITE(to, strnlen(to, room) < room ? strlen(to) + 1 : room);
  return result;
}
WRAPPER(int, getloadavg, double to[], int count) {
  int given = getloadavg(to, count);
  if (given > 0) WRITE(to, (size_t)given * sizeof *to);
  return given;
}
WRAPPER(ssize_t, getrandom, void *to, size_t bytes, unsigned flags) {
  extern ssize_t getrandom(void *, size_t, unsigned);
  ssize_t given = getrandom(to, bytes, flags);
  if (given > 0) WRITE(to, (size_t)given);
  return given;
}
WRAPPER(int, getentropy, void *to, size_t bytes) {
  int result = getentropy(to, bytes);
  if (!result) WRITE(to, bytes);
  return result;
}
