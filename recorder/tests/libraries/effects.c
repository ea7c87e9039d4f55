/* What each wrapper of libc tells, against what the manual of the function says that it reads and writes. Linked with the runtime's
   libc_*.o alone; the recorder's part is played by the functions below, which note accesses as `r NAME OFFSET BYTES` and `w ..`.
   Built and run by run.py; prints the cases that differ, and their number. */
#define _GNU_SOURCE
#include "../../runtime/libc.h"
#include <fcntl.h>
#include <math.h>
#include <stdarg.h>
#include <stdio.h>
#include <stdlib.h>
#include <string.h>
#include <time.h>
#include <unistd.h>
#include <wchar.h>

static char told[4096];
bool recording = true;
static int failed, tried;
static struct { const char *name; const char *base; size_t bytes; } regions[40];
static int region_count;

static void name_region(const char *name, const void *base, size_t bytes) {
  for (int i = 0; i < region_count; i++)
    if (!strcmp(regions[i].name, name)) { regions[i].base = base; regions[i].bytes = bytes; return; }
  regions[region_count].name = name;
  regions[region_count].base = base;
  regions[region_count++].bytes = bytes;
}
void record_access(uintptr_t address, size_t bytes, enum access kind, uintptr_t place) {
  (void)place;
  char *end = told + strlen(told);
  size_t room = sizeof told - strlen(told);
  const char *at = (const char *)address;
  for (int i = region_count - 1; i >= 0; i--)    /* the newest first: a stream is a block that was made, too */
    if (at >= regions[i].base && at < regions[i].base + regions[i].bytes) {
      snprintf(end, room, "%s%c %s %zu %zu", told[0] ? ", " : "", "rlbw"[kind], regions[i].name, (size_t)(at - regions[i].base), bytes);
      return;
    }
}
void refuse(uintptr_t place, const char *format, ...) {
  va_list v;
  va_start(v, format);
  (void)place;
  vprintf(format, v);
  va_end(v);
  exit(70);
}
void note_unseen(const char *format, ...) { (void)format; }
void end_lives(uintptr_t from, uintptr_t to) { (void)from; (void)to; }
void hide_accesses(bool on) { (void)on; }
const struct cilkcheck_site *__cilkcheck_place;
void finish_recording(void) {}
void *plain_malloc(size_t bytes) { return malloc(bytes); }
void plain_free(void *at) { free(at); }
void heap_made(void *block, size_t bytes, uintptr_t place) { (void)place; name_region("made", block, bytes); }
size_t heap_bytes(const void *block) { (void)block; return 1; }
void heap_freed(void *block, uintptr_t place) { (void)place; free(block); }

static void expect(int line, const char *wanted) {
  tried++;
  if (strcmp(told, wanted)) {
    failed++;
    printf("effects.c:%d: told `%s`, expected `%s`\n", line, told, wanted);
  }
}
/* The call, and what it has to tell, in this order. */
#define CASE(call, wanted) do { told[0] = 0; (void)(call); expect(__LINE__, wanted); } while (0)
#define VALUE(value, wanted) do { tried++; if ((value) != (wanted)) { failed++; printf("effects.c:%d: %s is not %s\n", __LINE__, #value, #wanted); } } while (0)

/* The wrappers that are tried: their types are those of the functions. */
#define TRIED(name) extern __typeof__(name) TELLS(name)
TRIED(memcpy); TRIED(memmove); TRIED(memset); TRIED(memcmp); TRIED(memchr); TRIED(memrchr); TRIED(memccpy); TRIED(strlen); TRIED(strnlen);
TRIED(strcpy); TRIED(strncpy); TRIED(strcat); TRIED(strncat); TRIED(strdup); TRIED(strndup); TRIED(strcmp); TRIED(strncmp); TRIED(strcasecmp);
TRIED(strchr); TRIED(strrchr); TRIED(strstr); TRIED(strspn); TRIED(strcspn); TRIED(strpbrk); TRIED(strtok); TRIED(strtok_r); TRIED(strsep);
TRIED(stpcpy); TRIED(memmem); TRIED(qsort); TRIED(bsearch); TRIED(rand_r); TRIED(rand); TRIED(frexp); TRIED(modf); TRIED(lgamma); TRIED(remquo);
TRIED(sincos); TRIED(snprintf); TRIED(sprintf); TRIED(asprintf); TRIED(fgets); TRIED(fread); TRIED(fwrite); TRIED(getline); TRIED(read); TRIED(write);
TRIED(wcscpy); TRIED(wcslen); TRIED(wcscmp); TRIED(localtime); TRIED(gmtime_r); TRIED(strftime); TRIED(strptime); TRIED(getcwd); TRIED(pipe);
TRIED(fopen); TRIED(fclose); TRIED(puts); TRIED(realpath); TRIED(readlink); TRIED(setenv); TRIED(getenv); TRIED(mbstowcs); TRIED(erand48);
extern int TELLS(__isoc99_sscanf)(const char *, const char *, ...);
extern long TELLS(strtol)(const char *, char **, int);
extern double TELLS(strtod)(const char *, char **);
extern int TELLS(atoi)(const char *);

static int compare_int(const void *a, const void *b) { return *(const int *)a - *(const int *)b; }

static char a[64], b[64];
static void fill(const char *in_a, const char *in_b) {
  memset(a, '#', sizeof a);
  memset(b, '#', sizeof b);
  strcpy(a, in_a);
  strcpy(b, in_b);
}
#define STATE_REGION(name) name_region("state:" #name, &STATE_NAME(name), 4)

static void memory(void) {
  CASE(TELLS(memcpy)(a, b, 7), "r b 0 7, w a 0 7");
  CASE(TELLS(memcpy)(a, b, 0), "");
  CASE(TELLS(memmove)(a + 1, a, 5), "r a 0 5, w a 1 5");
  CASE(TELLS(memset)(a + 3, 'x', 9), "w a 3 9");
  CASE(TELLS(memcmp)(a, b, 6), "r a 0 6, r b 0 6");
  fill("hello", "world");
  CASE(TELLS(memchr)(a, 'l', 64), "r a 0 3");
  CASE(TELLS(memchr)(a, 'z', 4), "r a 0 4");
  CASE(TELLS(memrchr)(a, 'l', 5), "r a 3 2");
  CASE(TELLS(memccpy)(b, a, 'l', 64), "r a 0 3, w b 0 3");
  CASE(TELLS(memmem)(a, 5, b, 2), "r b 0 2, r a 0 2");
}
static void strings(void) {
  fill("hello", "world");
  CASE(TELLS(strlen)(a), "r a 0 6");
  CASE(TELLS(strnlen)(a, 3), "r a 0 3");
  CASE(TELLS(strnlen)(a, 5), "r a 0 5");
  CASE(TELLS(strnlen)(a, 9), "r a 0 6");
  CASE(TELLS(strcpy)(b, a), "r a 0 6, w b 0 6");
  VALUE(strcmp(b, "hello"), 0);
  CASE(TELLS(stpcpy)(b, a), "r a 0 6, w b 0 6");
  CASE(TELLS(strncpy)(b, a, 10), "r a 0 6, w b 0 10");
  CASE(TELLS(strncpy)(b, a, 3), "r a 0 3, w b 0 3");
  fill("hello", "world");
  CASE(TELLS(strcat)(b, a), "r b 0 6, r a 0 6, w b 5 6");
  fill("hello", "world");
  CASE(TELLS(strncat)(b, a, 2), "r b 0 6, r a 0 2, w b 5 3");
  VALUE(strcmp(b, "worldhe"), 0);
  char *copy = NULL;
  CASE(copy = TELLS(strdup)(a), "r a 0 6, w made 0 6");
  VALUE(strcmp(copy, "hello"), 0);
  CASE(copy = TELLS(strndup)(a, 2), "r a 0 2, w made 0 3");
  VALUE(strcmp(copy, "he"), 0);
  fill("hello", "help");
  CASE(TELLS(strcmp)(a, b), "r a 0 4, r b 0 4");
  CASE(TELLS(strncmp)(a, b, 3), "r a 0 3, r b 0 3");
  CASE(TELLS(strncmp)(a, b, 30), "r a 0 4, r b 0 4");
  fill("same", "same");
  CASE(TELLS(strcmp)(a, b), "r a 0 5, r b 0 5");
  fill("HeLp", "hElm");
  CASE(TELLS(strcasecmp)(a, b), "r state:locale 0 4, r a 0 4, r b 0 4");
  fill("hello", "l");
  CASE(TELLS(strchr)(a, 'l'), "r a 0 3");
  CASE(TELLS(strchr)(a, 'z'), "r a 0 6");
  CASE(TELLS(strrchr)(a, 'h'), "r a 0 6");
  CASE(TELLS(strstr)(a, b), "r b 0 2, r a 0 3");
  CASE(TELLS(strspn)(a, "he"), "r a 0 3");
  CASE(TELLS(strcspn)(a, b), "r b 0 2, r a 0 3");
  CASE(TELLS(strpbrk)(a, b), "r b 0 2, r a 0 3");
}
static void words(void) {
  char *rest = NULL;
  name_region("rest", &rest, sizeof rest);
  fill(" one two", " ");
  CASE(TELLS(strtok_r)(a, b, &rest), "r b 0 2, r a 0 5, w a 4 1, w rest 0 8");
  VALUE(strcmp(a + 1, "one"), 0);
  CASE(TELLS(strtok_r)(NULL, b, &rest), "r rest 0 8, r b 0 2, r a 5 4, w rest 0 8");
  CASE(TELLS(strtok_r)(NULL, b, &rest), "r rest 0 8, r b 0 2, r a 8 1, w rest 0 8");
  fill("one two", " ");
  CASE(TELLS(strtok)(a, b), "r state:strtok 0 4, w state:strtok 0 4, r b 0 2, r a 0 4, w a 3 1");
  CASE(TELLS(strtok)(NULL, b), "r state:strtok 0 4, w state:strtok 0 4, r b 0 2, r a 4 4");
  fill(",x", ",");
  rest = a;
  CASE(TELLS(strsep)(&rest, b), "r rest 0 8, r b 0 2, r a 0 1, w a 0 1, w rest 0 8");
  CASE(TELLS(strsep)(&rest, b), "r rest 0 8, r b 0 2, r a 1 2, w rest 0 8");
  CASE(TELLS(strsep)(&rest, b), "r rest 0 8");
}
static void numbers(void) {
  char *end = NULL;
  name_region("end", &end, sizeof end);
  fill("  12x", "");
  CASE(TELLS(strtol)(a, &end, 10), "r a 0 5, r state:locale 0 4, w end 0 8");
  VALUE(end, a + 4);
  CASE(TELLS(atoi)(a), "r a 0 5, r state:locale 0 4");
  fill("0xg", "");
  CASE(TELLS(strtol)(a, NULL, 0), "r a 0 3, r state:locale 0 4");
  fill("  +z", "");
  CASE(TELLS(strtol)(a, NULL, 10), "r a 0 4, r state:locale 0 4");
  fill("1.5e+x", "");
  CASE(TELLS(strtod)(a, NULL), "r a 0 6, r state:locale 0 4");
  fill("infx", "");
  CASE(TELLS(strtod)(a, NULL), "r a 0 4, r state:locale 0 4");
  fill("inx", "");
  CASE(TELLS(strtod)(a, NULL), "r a 0 3, r state:locale 0 4");
  unsigned seed = 1;
  name_region("seed", &seed, sizeof seed);
  CASE(TELLS(rand_r)(&seed), "r seed 0 4, w seed 0 4");
  CASE(TELLS(rand)(), "w state:rand 0 4");
  unsigned short state[3] = {1, 2, 3};
  name_region("state", state, sizeof state);
  CASE(TELLS(erand48)(state), "r state:drand48 0 4, r state 0 6, w state 0 6");
  int exponent;
  double whole, sine, cosine;
  name_region("exponent", &exponent, sizeof exponent);
  name_region("whole", &whole, sizeof whole);
  name_region("sine", &sine, sizeof sine);
  name_region("cosine", &cosine, sizeof cosine);
  CASE(TELLS(frexp)(3.0, &exponent), "w exponent 0 4");
  VALUE(exponent, 2);
  CASE(TELLS(modf)(3.5, &whole), "w whole 0 8");
  CASE(TELLS(remquo)(7.0, 2.0, &exponent), "w exponent 0 4");
  CASE(TELLS(sincos)(0.0, &sine, &cosine), "w sine 0 8, w cosine 0 8");
  VALUE(cosine, 1.0);
  name_region("signgam", &signgam, sizeof signgam);
  CASE(TELLS(lgamma)(-0.5), "w signgam 0 4");
  int numbers_of[5] = {3, 1, 2, 5, 4};
  name_region("numbers", numbers_of, sizeof numbers_of);
  CASE((TELLS(qsort)(numbers_of, 5, sizeof(int), compare_int), 0), "r numbers 0 20, w numbers 0 20");
  CASE((TELLS(qsort)(numbers_of, 1, sizeof(int), compare_int), 0), "");
  VALUE(numbers_of[0], 1);
  int key = 4;
  CASE(TELLS(bsearch)(&key, numbers_of, 5, sizeof(int), compare_int), "");
}
static void formats(void) {
  fill("text", "precision");
  int count = 0, number = 0;
  char *made = NULL, letter;
  short small;
  double wide;
  name_region("count", &count, sizeof count);
  name_region("number", &number, sizeof number);
  name_region("made_at", &made, sizeof made);
  name_region("small", &small, sizeof small);
  name_region("letter", &letter, sizeof letter);
  name_region("wide", &wide, sizeof wide);
  char out[64];
  name_region("out", out, sizeof out);
  CASE(TELLS(snprintf)(out, 64, "%d %s %.3s", 7, a, b), "r state:locale 0 4, r a 0 5, r b 0 3, w out 0 11");
  VALUE(strcmp(out, "7 text pre"), 0);
  CASE(TELLS(snprintf)(out, 5, "%s%s", b, a), "r state:locale 0 4, r b 0 10, r a 0 5, w out 0 5");
  CASE(TELLS(snprintf)(NULL, 0, "%s", a), "r state:locale 0 4, r a 0 5");
  CASE(TELLS(snprintf)(out, 64, "%.*s %lf %Lf %c%%%n%s", 2, b, 1.0, 2.0L, 'x', &count, a), "r state:locale 0 4, r b 0 2, w count 0 4, r a 0 5, w out 0 28");
  CASE(TELLS(snprintf)(out, 64, "%2$s %1$s", a, b), "r state:locale 0 4, r b 0 10, r a 0 5, w out 0 15");
  CASE(TELLS(snprintf)(out, 64, "%1$*2$d %3$.*2$s", 7, 3, b), "r state:locale 0 4, r b 0 3, w out 0 8");
  CASE(TELLS(snprintf)(out, 64, "%ld %zu %hhd %p %5.2f %s", 1L, (size_t)2, 3, (void *)0, 2.5, a), "r state:locale 0 4, r a 0 5, w out 0 23");
  CASE(TELLS(snprintf)(out, 64, "%s", (char *)NULL), "r state:locale 0 4, w out 0 7");
  wchar_t broad[4] = L"abc";
  name_region("broad", broad, sizeof broad);
  CASE(TELLS(snprintf)(out, 64, "%ls", broad), "r state:locale 0 4, r broad 0 16, w out 0 4");
  CASE(TELLS(sprintf)(out, "%s-", a), "r state:locale 0 4, r a 0 5, w out 0 6");
  CASE(TELLS(asprintf)(&made, "%d", 123), "r state:locale 0 4, w made 0 4, w made_at 0 8");
  VALUE(strcmp(made, "123"), 0);
  fill("12 7 abc x", "");
  CASE(TELLS(__isoc99_sscanf)(a, "%d %hd %3s %c", &number, &small, out, &letter), "r a 0 11, r state:locale 0 4, w number 0 4, w small 0 2, w out 0 4, w letter 0 1");
  CASE(TELLS(__isoc99_sscanf)(a, "%d %d %d", &number, &count, &count), "r a 0 11, r state:locale 0 4, w number 0 4, w count 0 4");
  CASE(TELLS(__isoc99_sscanf)(a, "%*d %lf %n%[a-b]", &wide, &count, out), "r a 0 11, r state:locale 0 4, w wide 0 8, w count 0 4, w out 0 3");
  CASE(TELLS(__isoc99_sscanf)("", "%d", &number), "r state:locale 0 4");
  CASE(TELLS(__isoc99_sscanf)(a, "%*d %*d %ms", &made), "r a 0 11, r state:locale 0 4, w made_at 0 8, w made 0 4");
  VALUE(strcmp(made, "abc"), 0);
}
static void files(void) {
  char path[] = "/tmp/cilkcheck-effects-XXXXXX";
  int file = mkstemp(path);
  if (file < 0 || write(file, "first\nsecond line\nxyz", 21) != 21) exit(1);
  name_region("path", path, sizeof path);
  FILE *stream = NULL;
  CASE(stream = TELLS(fopen)(path, "r"), "r path 0 30");
  name_region("stream", stream, sizeof *stream);
  char to[64];
  name_region("to", to, sizeof to);
  CASE(TELLS(fgets)(to, 64, stream), "r stream 0 4, w to 0 7");
  VALUE(strcmp(to, "first\n"), 0);
  CASE(TELLS(fgets)(to, 4, stream), "r stream 0 4, w to 0 4");
  VALUE(strcmp(to, "sec"), 0);
  char *line = NULL;
  size_t room = 0;
  name_region("line", &line, sizeof line);
  name_region("room", &room, sizeof room);
  CASE(TELLS(getline)(&line, &room, stream), "r stream 0 4, r line 0 8, r room 0 8, w line 0 8, w room 0 8, w made 0 10");
  VALUE(strcmp(line, "ond line\n"), 0);
  CASE(TELLS(fread)(to, 2, 30, stream), "r stream 0 4, w to 0 3");
  CASE(TELLS(fgets)(to, 64, stream), "r stream 0 4");
  CASE(TELLS(fclose)(stream), "w stream 0 4");
  lseek(file, 0, SEEK_SET);
  CASE(TELLS(read)(file, to, 5), "w to 0 5");
  CASE(TELLS(read)(file, to, 64), "w to 0 16");
  CASE(TELLS(read)(file, to, 64), "");
  CASE(TELLS(write)(file, to, 3), "r to 0 3");
  char *whole = NULL;
  CASE(whole = TELLS(realpath)(path, NULL), "r path 0 30, w made 0 30");
  VALUE(strcmp(whole, path), 0);
  int ends[2];
  name_region("ends", ends, sizeof ends);
  CASE(TELLS(pipe)(ends), "w ends 0 8");
  unlink(path);
}
static void rest(void) {
  wchar_t x[8] = L"abc", y[8] = L"abd";
  name_region("x", x, sizeof x);
  name_region("y", y, sizeof y);
  CASE(TELLS(wcslen)(x), "r x 0 16");
  CASE(TELLS(wcscmp)(x, y), "r x 0 12, r y 0 12");
  CASE(TELLS(wcscpy)(y, x), "r x 0 16, w y 0 16");
  time_t now = 86400 * 365;
  struct tm date, *shared;
  name_region("now", &now, sizeof now);
  name_region("date", &date, sizeof date);
  shared = localtime(&now);
  name_region("shared", shared, sizeof *shared);
  CASE(TELLS(localtime)(&now), "r now 0 8, r state:environment 0 4, w shared 0 56");
  CASE(TELLS(gmtime_r)(&now, &date), "r now 0 8, w date 0 56");
  char text[32];
  name_region("text", text, sizeof text);
  CASE(TELLS(strftime)(text, 32, "%Y", &date), "r date 0 56, r state:locale 0 4, w text 0 5");
  VALUE(strcmp(text, "1971"), 0);
  CASE(TELLS(setenv)("CILKCHECK_EFFECTS", "1", 1), "w state:environment 0 4");
  CASE(TELLS(getenv)("CILKCHECK_EFFECTS"), "r state:environment 0 4");
}
int main(void) {
  name_region("a", a, sizeof a);
  name_region("b", b, sizeof b);
  STATE_REGION(strtok);
  STATE_REGION(rand);
  STATE_REGION(drand48);
  STATE_REGION(locale);
  STATE_REGION(environment);
  void (*const groups[])(void) = {memory, strings, words, numbers, formats, files, rest};
  int common = region_count;
  for (size_t i = 0; i < sizeof groups / sizeof *groups; i++) {
    region_count = common;                       /* the locals of the group before are no more */
    groups[i]();
  }
  printf("effects: %d of %d as expected\n", tried - failed, tried);
  return failed != 0;
}
