/* Start and end of a recording, its options, and what it says. */
#define _GNU_SOURCE
#include "start.h"
#include "heap.h"
#include "histories.h"
#include "places.h"
#include "scopes.h"
#include "stack.h"
#include "traces.h"
#include <errno.h>
#include <fcntl.h>
#include <stdarg.h>
#include <stdio.h>
#include <stdlib.h>
#include <string.h>
#include <sys/mman.h>
#include <unistd.h>

bool recording, recording_began;
struct options options;
static char notes[1 << 16]; static size_t notes_used;
static char words[400];

static void say_at(uintptr_t place, const char *what, const char *format, va_list values) {
  char text[1200], where[400];
  vsnprintf(text, sizeof text, format, values);
  place_name(place_in_source(place), where, sizeof where);
  say("%s: %s%s%s", what, where, where[0] ? ": " : "", text);
}

void say(const char *format, ...) {
  char text[2000] = "cilkcheck: ";
  size_t used = strlen(text);
  va_list values;
  va_start(values, format);
  int more = vsnprintf(text + used, sizeof text - used - 1, format, values);
  va_end(values);
  if (more > 0) used += (size_t)more < sizeof text - used - 1 ? (size_t)more : sizeof text - used - 2;
  text[used++] = '\n';
  if (write(STDERR_FILENO, text, used) < 0) return;                /* nobody is left to be told */
}

void refuse(uintptr_t place, const char *format, ...) {
  recording = false;
  va_list values;
  va_start(values, format);
  fflush(NULL);
  say_at(place, "refused", format, values);
  va_end(values);
  traces_discard();
  _exit(70);
}

void warn(uintptr_t place, const char *format, ...) {
  va_list values;
  va_start(values, format);
  say_at(place, "warning", format, values);
  va_end(values);
}

void note_unseen(const char *format, ...) {
  char text[1000];
  va_list values;
  va_start(values, format);
  vsnprintf(text, sizeof text - 1, format, values);
  va_end(values);
  for (char *c = text; *c; c++) if (*c < 0x20 || *c > 0x7E) *c = '?';
  strcat(text, "\n");
  for (const char *line = notes; *line; line = strchr(line, '\n') + 1) if (!strncmp(line, text, strlen(text))) return;
  if (notes_used + strlen(text) >= sizeof notes) refuse(0, "more than %zu bytes of notes on what was not seen", sizeof notes);
  strcpy(notes + notes_used, text);
  notes_used += strlen(text);
}
const char *unseen_notes(void) { return notes; }
const char *command_words(void) { return words; }

void *reserve(size_t bytes) {
  void *at = mmap(NULL, bytes, PROT_READ | PROT_WRITE, MAP_PRIVATE | MAP_ANONYMOUS | MAP_NORESERVE, -1, 0);
  if (at == MAP_FAILED) refuse(0, "no address space for %zu bytes (ulimit -v, or vm.overcommit_memory=2)", bytes);
  return at;
}
void unreserve(void *at, size_t bytes) { munmap(at, bytes); }

static bool is_set(const char *name, const char *value) {
  const char *found = getenv(name);
  return found && !strcmp(found, value);
}

static void read_command(void) {
  int file = open("/proc/self/cmdline", O_RDONLY | O_CLOEXEC);
  if (file < 0) return;
  ssize_t got = read(file, words, sizeof words - 1);
  close(file);
  while (got > 0 && !words[got - 1]) got--;
  for (ssize_t i = 0; i < got; i++) if (words[i] < 0x20 || words[i] > 0x7E) words[i] = words[i] ? '?' : ' ';
}

void begin_recording(void) {
  if (recording_began) return;
  recording_began = true;
  int kept = errno;
  options.raw = is_set("CILKCHECK_RAW", "1");
  options.epochs = !options.raw && !is_set("CILKCHECK_EPOCHS", "no");
  options.members = getenv("CILKCHECK_MEMBERS");
  options.trace = getenv("CILKCHECK_TRACE");
  const char *limit = getenv("CILKCHECK_LIMIT");
  options.limit = limit ? strtoull(limit, NULL, 10) : 1000000;
  if (options.limit < 10 || options.limit > 1000000) refuse(0, "CILKCHECK_LIMIT is %s, and has to be 10 to 1000000", limit);
  read_command();
  traces_begin();
  places_begin();
  histories_begin();
  stack_begin();
  heap_begin();
  scopes_begin();
  recording = true;
  errno = kept;
}

/* Before the constructors of the program, and behind all its destructors. */
__attribute__((constructor(101))) static void begin(void) { start_recording(); }
__attribute__((destructor(101))) void finish_recording(void) {
  if (!recording) return;
  scope_close_all(PLACE);
  recording = false;
  histories_stop_looking();
  traces_write();
}
