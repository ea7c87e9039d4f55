/* The tables of the program. places.h states the invariants. */
#define _GNU_SOURCE
#include "places.h"
#include "histories.h"
#include <stdio.h>
#include <stdlib.h>
#include <string.h>
#include <unistd.h>

#define TABLE(type, name) \
  extern const struct type name##_begin[] __asm__("__start_" #name) __attribute__((weak, visibility("hidden"))); \
  extern const struct type name##_end[] __asm__("__stop_" #name) __attribute__((weak, visibility("hidden")))
#define MOST_NOTES 20u                         /* of places that are not seen; of the others there is their number */

TABLE(cilkcheck_site, cilkcheck_sites);
TABLE(cilkcheck_object, cilkcheck_objects);
TABLE(cilkcheck_note, cilkcheck_notes);

typedef const struct cilkcheck_site *row;

struct places places;
static char folder[4096];                      /* where the program was started, with a slash at the end */
static row *rows_of_sites;                     /* of each site, the row that was met first */
static uint32_t site_count, *slots, mask = (1u << 10) - 1;      /* slots: a hash table of the sites */

void places_begin(void) {
  size_t bytes = (size_t)((const char *)cilkcheck_sites_end - (const char *)cilkcheck_sites_begin);
  if (bytes % sizeof(struct cilkcheck_site)) refuse(0, "the program's table of places is of another version: compile the program again");
  if (bytes && !cilkcheck_sites_begin->file) refuse(0, "the program's table of places is gone: link it again, and keep the section cilkcheck_sites");
  places.rows = (uintptr_t)cilkcheck_sites_begin;
  places.bytes = bytes;
  places.sites = reserve(sizeof *places.sites * (bytes / sizeof(struct cilkcheck_site) + 1));
  rows_of_sites = reserve(sizeof *rows_of_sites * MOST_SITES);
  slots = reserve(sizeof *slots * ((size_t)mask + 1));
  if (getcwd(folder, sizeof folder - 1)) strcat(folder, "/");
}

/* ---- sites ---- */

static bool is_in_header(uintptr_t place) { return ((row)place)->flags & CILKCHECK_SYSTEM; }
uintptr_t place_in_source(uintptr_t place) {
  return place && is_in_header(place) && PLACE && !is_in_header(PLACE) ? PLACE : place;
}

static uint32_t hash_of(row at) {
  uint32_t hash = at->line * 0x9E3779B1u;
  for (const char *c = place_text(&at->file); *c; c++) hash = (hash ^ (uint8_t)*c) * 0x01000193u;
  for (const char *c = place_text(&at->function); *c; c++) hash = (hash ^ (uint8_t)*c) * 0x01000193u;
  return hash ^ hash >> 15;
}
static bool is_same(const int32_t *a, const int32_t *b) {
  const char *x = place_text(a), *y = place_text(b);
  return x == y || !strcmp(x, y);
}
static uint32_t *slot_of(row at) {
  uint32_t slot = hash_of(at) & mask;
  for (; slots[slot]; slot = (slot + 1) & mask) {
    row other = rows_of_sites[slots[slot]];
    if (other->line == at->line && is_same(&other->function, &at->function) && is_same(&other->file, &at->file)) break;
  }
  return &slots[slot];
}
static void more_slots(void) {
  unreserve(slots, sizeof *slots * ((size_t)mask + 1));
  mask = mask * 4 + 3;
  slots = reserve(sizeof *slots * ((size_t)mask + 1));
  for (uint32_t i = 1; i <= site_count; i++) *slot_of(rows_of_sites[i]) = i;
}

RARE uint32_t place_new_site(uintptr_t place) {
  if (!place) return 0;
  uintptr_t source = place_in_source(place);
  if (source != place) return place_site(source);
  uint32_t *slot = slot_of((row)place), site = *slot;
  if (!site) {
    if (site_count == MOST_SITES - 1) refuse(0, "more than %u places in the program", site_count);
    site = *slot = ++site_count;
    rows_of_sites[site] = (row)place;
    if (site_count * 2 > mask) more_slots();
  }
  if (!is_in_header(place) && place - places.rows < places.bytes) places.sites[(place - places.rows) / sizeof(struct cilkcheck_site)] = site;
  return site;
}
uint32_t place_sites(void) { return site_count; }

/* ---- names ---- */

static size_t add(char *text, size_t room, size_t used, const char *more) {
  for (; *more && used + 1 < room; more++) text[used++] = *more >= 0x20 && *more <= 0x7E ? *more : '?';
  text[used] = 0;
  return used;
}
static size_t add_line(char *text, size_t room, size_t used, const int32_t *file, uint32_t line) {
  char number[16];
  const char *name = place_text(file);
  size_t length = strlen(folder);
  if (length > 1 && !strncmp(name, folder, length)) name += length;
  snprintf(number, sizeof number, ":%u", line);
  return add(text, room, add(text, room, used, name), number);
}

void site_name(uint32_t site, char *text, size_t room) {
  text[0] = 0;
  if (!site) return;
  row at = rows_of_sites[site];
  const char *code = place_text(&at->code);
  size_t used = add(text, room, add_line(text, room, 0, &at->file, at->line), ", ");
  used = add(text, room, used, place_text(&at->function));
  if (*code) add(text, room, add(text, room, used, " | "), code);
}
void place_name(uintptr_t place, char *text, size_t room) {
  text[0] = 0;
  if (place) add_line(text, room, 0, &((row)place)->file, ((row)place)->line);
}
const char *place_variable(uintptr_t place) { return place_text(&((row)place)->name); }
uint32_t place_line(uintptr_t place) { return ((row)place)->line; }
void frame_name(const struct cilkcheck_frame *at, uint32_t line, char *text, size_t room) {
  size_t used = add(text, room, add(text, room, 0, place_text(&at->function)), " (");
  add(text, room, add_line(text, room, used, &at->file, line ? line : at->line), ")");
}

/* ---- objects ---- */

typedef const struct cilkcheck_object *object;
static object *objects;
static size_t object_count;

static uintptr_t address_of(object at) { return (uintptr_t)cilkcheck_object_address(at); }
static int by_address(const void *a, const void *b) {
  uintptr_t x = address_of(*(const object *)a), y = address_of(*(const object *)b);
  return (x > y) - (x < y);
}
static void read_objects(void) {
  size_t most = (size_t)(cilkcheck_objects_end - cilkcheck_objects_begin);
  objects = reserve(sizeof *objects * (most + 1));
  for (size_t i = 0; i < most; i++) objects[object_count++] = &cilkcheck_objects_begin[i];
  bool kept = recording;
  recording = false;                                               /* qsort takes memory of its own */
  if (object_count) qsort(objects, object_count, sizeof *objects, by_address);
  recording = kept;
}
bool place_object(uintptr_t address, char *text, size_t room, size_t *byte) {
  if (!objects) read_objects();
  size_t low = 0, high = object_count;
  while (low < high) { size_t middle = (low + high) / 2; if (address_of(objects[middle]) <= address) low = middle + 1; else high = middle; }
  if (!low) return false;
  object found = objects[low - 1];
  *byte = address - address_of(found);
  if (*byte >= found->bytes) return false;
  add(text, room, 0, place_text(&found->name));
  return true;
}

/* ---- notes ---- */

void places_note_unseen(void) {
  uint32_t count = 0;
  for (const struct cilkcheck_note *note = cilkcheck_notes_begin; note < cilkcheck_notes_end; note++) {
    char where[400];
    if (!note->file) { note_unseen("%s", place_text(&note->what)); continue; }
    if (count++ >= MOST_NOTES) continue;
    add_line(where, sizeof where, 0, &note->file, note->line);
    note_unseen("not seen: %s: %s", where, place_text(&note->what));
  }
  if (count > MOST_NOTES) note_unseen("not seen: %u places more", count - MOST_NOTES);
}
