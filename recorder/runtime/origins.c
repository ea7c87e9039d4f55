/* What a location is. */
#include "origins.h"
#include "heap.h"
#include "libc.h"
#include "openmp.h"
#include "places.h"
#include "stack.h"
#include <stdio.h>
#include <string.h>

#define MOST_ORIGINS (1u << 24)
#define GLOBAL_PART ((uintptr_t)1 << 31)       /* offsets of globals count from a multiple of this */

static struct origin *origins;                 /* from 1 on; `base` is kept for globals alone */
static uint32_t origin_count, *slots, mask;

struct origin origin_of_address(uintptr_t address) {
  struct block block;
  struct local local;
  uintptr_t base, place;
  size_t bytes;
  if (task_memory_of(address, &base, &bytes, &place)) return (struct origin){ORIGIN_TASK, place, base, bytes};
  if (stack_local_of(address, &local)) {
    uintptr_t row = (uintptr_t)local.frame.row;
    return local.dynamic ? (struct origin){ORIGIN_DYNAMIC, row, local.base, local.dynamic} : (struct origin){ORIGIN_LOCAL, row, local.base, local.number};
  }
  if (heap_block_of(address, &block)) return (struct origin){ORIGIN_HEAP, block.place, block.base, block.bytes};
  return (struct origin){ORIGIN_GLOBAL, 0, address & ~(GLOBAL_PART - 1), 0};
}

static uint32_t slot_of(const struct origin *origin) {
  uint64_t mixed = (origin->place * 8 + (uint64_t)origin->kind) * 0x9E3779B97F4A7C15u ^ (origin->more + origin->base) * 0xC2B2AE3D27D4EB4Fu;
  uint32_t at = (uint32_t)(mixed >> 32 ^ mixed >> 13) & mask;
  for (; slots[at]; at = (at + 1) & mask) {
    const struct origin *other = &origins[slots[at]];
    if (other->kind == origin->kind && other->place == origin->place && other->more == origin->more && other->base == origin->base) break;
  }
  return at;
}
static void more_slots(void) {
  if (slots) unreserve(slots, sizeof *slots * ((size_t)mask + 1));
  else origins = reserve(sizeof *origins * MOST_ORIGINS);
  mask = mask ? mask * 4 + 3 : 1023;
  slots = reserve(sizeof *slots * ((size_t)mask + 1));
  for (uint32_t i = 1; i <= origin_count; i++) slots[slot_of(&origins[i])] = i;
}

uint32_t origin_number(const struct origin *origin) {
  struct origin key = *origin;
  if (key.kind != ORIGIN_GLOBAL) key.base = 0;
  if (origin_count * 2 >= mask) more_slots();
  uint32_t at = slot_of(&key);
  if (!slots[at]) {
    if (origin_count == MOST_ORIGINS - 1) refuse(0, "more than %u kinds of locations: take a smaller input", MOST_ORIGINS);
    origins[++origin_count] = key;
    slots[at] = origin_count;
  }
  return slots[at];
}

/* `NAME, byte N, a local of FUNCTION (FILE:LINE)`, as far as it is known. The line is that of the local where it has a name. */
static void local_name(const char *name, uint32_t line, const struct cilkcheck_frame *row, uint32_t offset, char *text, size_t room) {
  char function[400], byte[32] = "";
  frame_name(row, *name ? line : 0, function, sizeof function);
  if (offset) snprintf(byte, sizeof byte, "byte %u, ", offset);
  snprintf(text, room, "%s%s%sa local of %s", name, *name ? ", " : "", *name ? byte : "", function);
}
static const char *state_name(uintptr_t address) {
  static const struct { const uint32_t *at; const char *name; } states[] = {HIDDEN_STATES(STATE_ROW)};
  for (size_t i = 0; i < sizeof states / sizeof *states; i++) if (address - (uintptr_t)states[i].at < sizeof *states[i].at) return states[i].name;
  return NULL;
}
static void global_name(uintptr_t address, char *text, size_t room) {
  char name[400];
  size_t byte = 0;
  const char *state = state_name(address);
  if (state) snprintf(text, room, "the state of %s", state);
  else if (!place_object(address, name, sizeof name, &byte)) snprintf(text, room, "memory at 0x%lx", address);
  else if (byte) snprintf(text, room, "%s, byte %zu", name, byte);
  else snprintf(text, room, "%s", name);
}

bool origin_name(uint32_t number, uint32_t offset, char *text, size_t room) {
  const struct origin *origin = &origins[number];
  const struct cilkcheck_frame *row = (const struct cilkcheck_frame *)origin->place;
  char name[400];
  switch (origin->kind) {
  case ORIGIN_LOCAL: {
    const struct cilkcheck_local *locals = cilkcheck_target(&row->locals), *local = origin->more ? locals + origin->more - 1 : NULL;
    if (local) local_name(place_text(&local->name), local->line, row, offset, text, room);
    else local_name("", 0, row, offset, text, room);
    return false;
  }
  case ORIGIN_DYNAMIC:
    local_name(place_variable(origin->more), place_line(origin->more), row, offset, text, room);
    return false;
  case ORIGIN_HEAP:
    place_name(origin->place, name, sizeof name);
    snprintf(text, room, "heap block of %lu bytes%s%s", origin->more, *name ? " from " : "", name);
    return true;
  case ORIGIN_TASK:
    place_name(origin->place, name, sizeof name);
    snprintf(text, room, "the data of a task from %s", name);
    return true;
  case ORIGIN_GLOBAL:
    global_name(origin->base + offset, text, room);
    break;
  }
  return false;
}
