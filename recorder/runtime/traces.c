/* The files of a recording: which cells stand in which, and their names. traces.h states the invariant. */
#define _GNU_SOURCE
#include "traces.h"
#include "histories.h"
#include "log.h"
#include "members.h"
#include "notes.h"
#include "pairs.h"
#include "places.h"
#include "raw.h"
#include "scopes.h"
#include "start.h"
#include <errno.h>
#include <fcntl.h>
#include <stdio.h>
#include <stdlib.h>
#include <string.h>
#include <sys/syscall.h>
#include <unistd.h>

#define MOST_CELLS 1000000u
#define MOST_BYTES ((uint64_t)52 << 20)        /* of requests, so that notes fit into a trace's 64 MiB */
#define MOST_REDUCERS 256u

static char folder[4096], name[256];           /* of the traces, without ending */
static struct text text;
static struct trace trace;
static uint32_t written;
static uint64_t requests;

/* ---- names ---- */

static void file_name(char *path, size_t room, uint32_t number, const char *ending) {
  char middle[16] = "";
  if (number) snprintf(middle, sizeof middle, ".%u", number);
  if ((size_t)snprintf(path, room, "%s/%s%s.trace%s", folder, name, middle, ending) >= room) refuse(0, "the name of the trace is too long");
}

/* Whether a file's name is NAME.trace or NAME.NUMBER.trace, perhaps with `.part` behind. */
static bool is_ours(const char *file) {
  size_t length = strlen(name);
  if (strncmp(file, name, length)) return false;
  file += length;
  if (file[0] == '.' && file[1] >= '1' && file[1] <= '9') for (file++; *file >= '0' && *file <= '9';) file++;
  return !strcmp(file, ".trace") || !strcmp(file, ".trace.part");
}

struct entry { uint64_t inode; int64_t offset; unsigned short bytes; unsigned char kind; char file[]; };
static void remove_old(bool parts_alone) {
  int at = open(folder, O_RDONLY | O_DIRECTORY | O_CLOEXEC);
  if (at < 0) return;
  bool again;
  do {                                                             /* an unlink may move what is read next */
    again = false;
    if (lseek(at, 0, SEEK_SET) < 0) break;
    char entries[8192] __attribute__((aligned(8)));
    long got;
    while ((got = syscall(SYS_getdents64, at, entries, sizeof entries)) > 0) {
      for (long i = 0; i < got;) {
        const struct entry *entry = (const struct entry *)(entries + i);
        size_t length = strlen(entry->file);
        bool part = length > 5 && !strcmp(entry->file + length - 5, ".part");
        if (is_ours(entry->file) && (part || !parts_alone) && !unlinkat(at, entry->file, 0)) again = true;
        i += entry->bytes;
      }
    }
  } while (again);
  close(at);
}

void traces_begin(void) {
  char path[4096], here[4096];
  if (options.trace && options.trace[0]) snprintf(path, sizeof path, "%s", options.trace);
  else snprintf(path, sizeof path, "%s", program_invocation_short_name);
  size_t length = strlen(path);
  if (length > 6 && !strcmp(path + length - 6, ".trace")) path[length - 6] = 0;
  char *slash = strrchr(path, '/');
  const char *last = slash ? slash + 1 : path;
  if (!*last || strlen(last) >= sizeof name) refuse(0, "CILKCHECK_TRACE=%s names no file", options.trace);
  snprintf(name, sizeof name, "%s", last);
  if (slash) *slash = 0; else path[0] = 0;
  if (path[0] == '/' || (slash == path)) snprintf(folder, sizeof folder, "%s", path[0] ? path : "/");
  else if (!getcwd(here, sizeof here)) refuse(0, "the working folder cannot be told: %s", strerror(errno));
  else if ((size_t)snprintf(folder, sizeof folder, "%s%s%s", here, path[0] ? "/" : "", path) >= sizeof folder) refuse(0, "the name of the trace is too long");
  remove_old(false);
}

void traces_discard(void) { if (name[0]) remove_old(true); }

static void rename_all(void) {
  char from[4700], to[4700];
  for (uint32_t i = 1; i <= written; i++) {
    file_name(from, sizeof from, i, ".part");
    file_name(to, sizeof to, written > 1 ? i : 0, "");
    if (!rename(from, to)) continue;
    int why = errno;
    remove_old(false);
    refuse(0, "cannot write %s: %s", to, strerror(why));
  }
}

/* ---- one trace ---- */

static char part[4700];
static void open_trace(uint32_t declared_cells, uint32_t declared_reducers) {
  file_name(part, sizeof part, written + 1, ".part");
  text_open(&text, part);
  text_line(&text, "cilk 2");
  text_end_line(&text);
  if (declared_cells) {
    text_line(&text, "mem c ");
    text_number(&text, declared_cells);
    text_end_line(&text);
  }
  for (uint32_t i = 0; i < declared_reducers; i++) {
    text_line(&text, "reducer r");
    text_number(&text, i);
    text_line(&text, " sum");
    text_end_line(&text);
  }
  if (!trace.sites) trace.sites = reserve(MOST_SITES / 8);
  memset(trace.sites, 0, place_sites() / 8 + 9);
  trace.text = &text;
  trace.most_requests = options.limit;
  trace.most_bytes = MOST_BYTES;
}
static void close_trace(void) {
  char title[700];
  snprintf(title, sizeof title, "%s: %lu access%s, %lu request%s", command_words(), histories.accesses, histories.accesses == 1 ? "" : "es", trace.requests,
           trace.requests == 1 ? "" : "s");
  notes_write(&trace, title);
  text_close(&text);
  written++;
  requests += trace.requests;
}
static void drop_trace(void) {
  text_close(&text);
  unlink(part);
}

static void write_raw(void) {
  uint32_t declared = raw_has_loads() ? 2 * raw_locations() : raw_locations();
  if (declared > MOST_CELLS || scope_reducers() > MOST_REDUCERS) refuse(0, "CILKCHECK_RAW is for small runs: %u bytes, and a trace holds %u cells", declared, MOST_CELLS);
  open_trace(declared, scope_reducers());
  if (!control_raw(&trace)) refuse(0, "CILKCHECK_RAW is for small runs: more than %lu requests", trace.most_requests);
  close_trace();
  for (uint32_t i = 0; i < declared; i++) members_byte(written, i, raw_has_loads() ? i / 2 + 1 : i + 1, raw_address(raw_has_loads() ? i / 2 + 1 : i + 1));
}

static bool write_requests(uint32_t from, uint32_t to, uint32_t first_reducer, uint32_t end_reducer) {
  trace.first_cell = from;
  trace.end_cell = to;
  trace.first_reducer = first_reducer;
  trace.end_reducer = end_reducer;
  open_trace(to - from, end_reducer - first_reducer);
  if (!control_requests(&trace)) { drop_trace(); return false; }
  close_trace();
  for (uint32_t cell = from; cell < to; cell++) members_cell(written, cell - from, cell);
  return true;
}

static void write_reducers(void) {
  uint32_t count = scope_reducers(), step = MOST_REDUCERS;
  for (uint32_t from = 0; from < count;) {
    uint32_t to = count - from < step ? count : from + step;
    if (write_requests(0, 0, from, to)) { from = to; continue; }
    if (to - from == 1) refuse(0, "more than %lu requests for one reducer: take a smaller input", options.limit);
    step = (to - from) / 2;
  }
}
static void write_pairs(void) {
  uint32_t step = MOST_CELLS;
  for (uint32_t from = 0; from < pairs.count;) {
    if (step > options.limit / 2) step = (uint32_t)(options.limit / 2);
    uint32_t to = pairs.count - from < step ? pairs.count : from + step;
    if (write_requests(from, to, 0, 0)) { from = to; step += step / 4 + 1; continue; }
    if (to - from == 1) refuse(0, "more than %lu requests for two accesses of one location: take a smaller input", options.limit);
    step = (to - from) / 2;
  }
}
/* Pairs and reducers in one trace, where it holds them. */
static bool write_all(void) {
  uint32_t reducers = scope_reducers();
  return reducers <= MOST_REDUCERS && pairs.count <= MOST_CELLS && pairs.count * 2 <= options.limit && write_requests(0, pairs.count, 0, reducers);
}

void traces_write(void) {
  char first[300], last[300] = "";
  places_note_unseen();
  text_begin();
  if (options.raw) {
    write_raw();
  } else if (!write_all()) {
    write_reducers();
    write_pairs();
  }
  members_write();
  rename_all();
  snprintf(first, sizeof first, written > 1 ? "%s.1.trace" : "%s.trace", name);
  if (written > 1) snprintf(last, sizeof last, " to %s.%u.trace", name, written);
  say("recorded %lu access%s as %lu request%s in %s%s", histories.accesses, histories.accesses == 1 ? "" : "es", requests, requests == 1 ? "" : "s", first, last);
}
