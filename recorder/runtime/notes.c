/* The notes of a trace. */
#include "notes.h"
#include "origins.h"
#include "pairs.h"
#include "places.h"
#include "start.h"
#include <stdio.h>
#include <string.h>

static void put_line(struct text *text, const char *line) {
  text_line(text, line);
  text_end_line(text);
}

static void put_places(const struct trace *trace) {
  uint32_t sites = place_sites();
  for (uint32_t site = 1; site <= sites; site++) {
    if (!(trace->sites[site / 64] >> site % 64 & 1)) continue;
    char line[LONGEST_LINE / 2], name[LONGEST_LINE / 4];
    site_name(site, name, sizeof name);
    snprintf(line, sizeof line, "#at %u %s", site, name);
    put_line(trace->text, line);
  }
}

/* What a location is that had such a pair, and how many bytes had one. Origins and their texts come again and again. */
static void put_pair(struct text *text, const struct pair *pair) {
  static uint32_t last;
  static char name[LONGEST_LINE / 4];
  static size_t length;
  static bool byte_follows;
  if (pair->origin != last || !byte_follows) {
    byte_follows = origin_name(pair->origin, pair->offset, name, sizeof name);
    length = strlen(name);
    last = pair->origin;
  }
  text_bytes(text, name, length);
  if (byte_follows) {
    text_word(text, ", byte ");
    text_number(text, pair->offset);
  }
  bool many = pair->bytes > 16;
  if (many) text_word(text, ", and "); else text_word(text, ", ");
  uint64_t bytes = many ? pair->bytes - 1 : pair->bytes;
  text_number(text, bytes < UINT32_MAX ? (uint32_t)bytes : UINT32_MAX);
  if (many) text_word(text, " more bytes"); else if (pair->bytes == 1) text_word(text, " byte"); else text_word(text, " bytes");
  text_end_line(text);
}

/* Most cells of a trace are often told alike: `#of c[*]` says that of all that have no note of their own. */
static const struct pair *pair_of_most(const struct trace *trace) {
  const struct pair *most = NULL;
  uint32_t votes = 0, count = 0;
  for (uint32_t cell = trace->first_cell; cell < trace->end_cell; cell++) {
    const struct pair *pair = &pairs.list[cell];
    bool alike = most && pair->origin == most->origin && pair->offset == most->offset && pair->bytes == most->bytes;
    if (alike) votes++; else if (votes) votes--; else { most = pair; votes = 1; }
  }
  for (uint32_t cell = trace->first_cell; most && cell < trace->end_cell; cell++) {
    const struct pair *pair = &pairs.list[cell];
    count += pair->origin == most->origin && pair->offset == most->offset && pair->bytes == most->bytes;
  }
  return count > 1 ? most : NULL;
}

static void put_cells(const struct trace *trace) {
  const struct pair *most = pair_of_most(trace);
  for (uint32_t cell = trace->first_cell; cell < trace->end_cell; cell++) {
    const struct pair *pair = &pairs.list[cell];
    if (most && pair->origin == most->origin && pair->offset == most->offset && pair->bytes == most->bytes) continue;
    if (text_length(trace->text) > trace->most_bytes + (8u << 20)) break;       /* the file's limit comes before a name */
    text_word(trace->text, "#of c[");
    text_number(trace->text, cell - trace->first_cell);
    text_word(trace->text, "] ");
    put_pair(trace->text, pair);
  }
  if (!most) return;
  text_line(trace->text, "#of c[*] ");
  put_pair(trace->text, most);
}

void notes_write(const struct trace *trace, const char *title) {
  char line[LONGEST_LINE / 2];
  snprintf(line, sizeof line, "#run %s", title);
  put_line(trace->text, line);
  for (const char *note = unseen_notes(); *note;) {
    const char *end = strchr(note, '\n');
    snprintf(line, sizeof line, "#run %.*s", (int)(end - note), note);
    put_line(trace->text, line);
    note = end + 1;
  }
  put_places(trace);
  if (!options.raw) put_cells(trace);
}
