/* The entries of memory's units, and the edges of the running strand. histories.h states the invariants. */
#define _GNU_SOURCE
#include "histories.h"
#include "members.h"
#include "pairs.h"
#include "places.h"
#include "raw.h"
#include "scopes.h"
#include "stack.h"
#include "start.h"
#include "states.h"
#include <string.h>
#include <sys/mman.h>

#define MOST_SPLITS 64000000u
#define FEW_EDGES 8u
#define FEWEST_SLOTS 1024u
#define MOST_SLOTS (1u << 25)
#define PAGES (1u << (47 - PAGE_SHIFT))
#ifndef COLLECT_AFTER                         /* states and scopes that are made before those in use are told from the others; tests have few */
#define COLLECT_AFTER (1u << 14)
#endif

struct histories histories;
static int hidden;                            /* calls of hide_accesses that are open */
static bool block_is_open;
static uint32_t *page_list, page_count;       /* the indices of the pages that are there */
static uint32_t split_count = 1, split_free;  /* the first free one; each names the next in its first entry */
static uint32_t site_now;

/* From the history `from` an access `key` (site << 2 | kind) leads to `to`, which so many bytes have taken and not left by an edge that
   stands for both (`taken_back`, an edge's number and 1), unless classes were made for it. Its pairs are edge_pairs from `first_pair` on. */
static struct edge { history from; uint32_t key; history to; uint32_t taken_back, first_pair, pair_count; uint64_t bytes; uintptr_t address; bool made; } *edges;
static uint32_t edge_count;
static uint32_t *edge_pairs, edge_pair_count;
/* Where there are many edges: a hash table of them. A slot of an earlier generation is free, so that a new strand begins with an empty table
   without a sweep. */
static struct slot { uint32_t edge, generation; } *slots;
static uint32_t slot_mask = FEWEST_SLOTS - 1, generation = 1;
static bool in_slots, unread;                 /* unread: an edge of a read may have pairs that are not made yet */

static void look(void) { histories.looking = recording && !hidden && (block_is_open || !options.epochs); }
void histories_look(bool on) { block_is_open = on; look(); }
void histories_stop_looking(void) { histories.looking = false; }
void hide_accesses(bool on) {
  start_recording();
  hidden += on ? 1 : -1;
  look();
}

void histories_begin(void) {
  histories.pages = reserve(sizeof *histories.pages * PAGES);
  histories.splits = reserve(sizeof *histories.splits * MOST_SPLITS);
  page_list = reserve(sizeof *page_list * PAGES);
  edges = reserve(sizeof *edges * MOST_EDGES);
  edge_pairs = reserve(sizeof *edge_pairs * MOST_EDGES * 16);
  slots = reserve(sizeof *slots * MOST_SLOTS);
  histories.states_of_strand = histories.states_of_epoch = FIRST_STATE << 2;
  states_begin();
  pairs_begin();
  if (options.raw) raw_begin();
  recording = true;
  look();
}

/* ---- edges ---- */

static const uint32_t conflicting[] = {              /* by kind: the kinds that conflict with it */
  [ACCESS_READ] = 1u << ACCESS_WRITE | 1u << ACCESS_BUMP,
  [ACCESS_LOAD] = 1u << ACCESS_WRITE,
  [ACCESS_BUMP] = 1u << ACCESS_WRITE | 1u << ACCESS_READ,
  [ACCESS_WRITE] = 1u << ACCESS_WRITE | 1u << ACCESS_BUMP | 1u << ACCESS_READ | 1u << ACCESS_LOAD,
};

static struct edge *making;
static bool all_known;
static void make_pair(uint32_t access, uint32_t path, const struct scope *scope, uint32_t part) {
  uint32_t pair = pair_of(access, path, scope, part, making->key, making->address);
  if (pair == UNKNOWN_PAIR) all_known = false;
  if (pair >= UNKNOWN_PAIR) return;
  if (edge_pair_count == MOST_EDGES * 16) refuse(0, "a strand with more than %u pairs of accesses: take a smaller input", edge_pair_count);
  edge_pairs[edge_pair_count++] = pair;
}
/* The classes of a frame's pairs with one access are decided by its sets and by how many spawns lie around it and around the access (pairs.h).
   The same come again and again, so they are remembered, where they are few. */
#define MEMOS 1024u
#define FEW_PAIRS 3u
struct frame_pairs { uint32_t plain, kids, key, around, inside; };
static struct memo { struct frame_pairs of; uint32_t count, pairs[FEW_PAIRS]; } memos[MEMOS];
static inline struct memo *memo_of(const struct frame_pairs *of) {
  return &memos[(of->plain * 31 + of->kids * 7 + of->key + of->inside) % MEMOS];
}
static inline bool is_memo(const struct memo *memo, const struct frame_pairs *of) {
  const struct frame_pairs *it = &memo->of;
  return it->plain == of->plain && it->kids == of->kids && it->key == of->key && it->around == of->around && it->inside == of->inside;
}
/* An edge with the address 0 has only those pairs whose classes are known; `all_known` says whether these are all. */
static inline void make_pairs(struct edge *edge, const struct settled *settled) {
  uint32_t kinds = conflicting[edge->key & 3];
  uint32_t around = path_depth(settled->scope->level.path), inside = path_depth(scope_innermost->level.path);
  struct frame_pairs of = {settled->plain, settled->kids, edge->key, around, inside};
  struct memo *memo = memo_of(&of);
  bool is_one_frame = !settled->outer || !(state_kinds(settled->outer) & kinds);
  making = edge;
  all_known = true;
  edge->first_pair = edge_pair_count;
  if (is_one_frame && is_memo(memo, &of) && edge_pair_count < MOST_EDGES * 16 - FEW_PAIRS) {
    for (uint32_t i = 0; i < memo->count; i++) edge_pairs[edge_pair_count++] = memo->pairs[i];
    edge->pair_count = memo->count;
    return;
  }
  states_each(settled, kinds, make_pair);
  edge->pair_count = edge_pair_count - edge->first_pair;
  if (!is_one_frame || !all_known || edge->pair_count > FEW_PAIRS) return;
  *memo = (struct memo){.of = of, .count = edge->pair_count};
  for (uint32_t i = 0; i < edge->pair_count; i++) memo->pairs[i] = edge_pairs[edge->first_pair + i];
}

/* A read's pairs of a new class are made behind the others: where a write by the same strand at the same line follows, as in `count++`, that
   one's pairs tell it (law `a_read_beside_a_write`). */
#define UNREAD UINT32_MAX
void histories_tell_reads(void) {
  if (!unread) return;
  unread = false;
  for (uint32_t i = 0; i < edge_count; i++) {
    struct edge *edge = &edges[i];
    if (edge->pair_count != UNREAD || !edge->bytes) continue;
    struct settled settled = states_settle_all(edge->from >> 2);
    make_pairs(edge, &settled);
    edge->made = true;
  }
}

static __attribute__((noinline)) void forget_edges(void) {
  histories_tell_reads();
  for (uint32_t i = 0; i < edge_count && edge_pair_count; i++) {
    const struct edge *edge = &edges[i];
    for (uint32_t k = 0; edge->pair_count != UNREAD && k < edge->pair_count && edge->bytes; k++)
      pair_had(edge_pairs[edge->first_pair + k], edge->address, edge->bytes);
  }
  if (options.members) members_strand_end();
  edge_count = edge_pair_count = 0;
  if (!in_slots) return;
  if (slot_mask >= 1u << 16) madvise(slots, sizeof *slots * ((size_t)slot_mask + 1), MADV_DONTNEED);
  slot_mask = FEWEST_SLOTS - 1;
  in_slots = false;
  if (!++generation) refuse(0, "more than %u strands: take a smaller input", UINT32_MAX);
}
void histories_forget_edges(void) { if (edge_count) forget_edges(); }
const uint32_t *histories_pairs(uint32_t edge, uint32_t *count) {
  *count = edges[edge].pair_count == UNREAD ? 0 : edges[edge].pair_count;
  return edge_pairs + edges[edge].first_pair;
}

static inline uint32_t slot_of(history from, uint32_t key) {
  return (uint32_t)(((uint64_t)from << 32 | key) * 0x9E3779B97F4A7C15u >> 32) & slot_mask;
}
static void fill_slot(uint32_t edge) {
  uint32_t at = slot_of(edges[edge].from, edges[edge].key);
  while (slots[at].generation == generation) at = (at + 1) & slot_mask;
  slots[at] = (struct slot){edge, generation};
}
static __attribute__((noinline)) void fill_slots(void) {
  if (in_slots) {
    slot_mask = slot_mask * 4 + 3;
    memset(slots, 0, sizeof *slots * ((size_t)slot_mask + 1));
  }
  in_slots = true;
  for (uint32_t i = 0; i < edge_count; i++) fill_slot(i);
}

static inline struct edge *known_edge(history from, uint32_t key) {
  if (!in_slots) {
    for (uint32_t i = 0; i < edge_count; i++) if (edges[i].from == from && edges[i].key == key) return &edges[i];
    return NULL;
  }
  for (uint32_t at = slot_of(from, key); slots[at].generation == generation; at = (at + 1) & slot_mask) {
    struct edge *edge = &edges[slots[at].edge];
    if (edge->from == from && edge->key == key) return edge;
  }
  return NULL;
}
static inline uint32_t new_edge(history from, uint32_t key, uintptr_t address) {
  if (edge_count == MOST_EDGES) refuse(0, "a strand with more than %u kinds of accesses: take a smaller input", MOST_EDGES);
  uint32_t number = edge_count++;
  edges[number] = (struct edge){.from = from, .key = key, .address = address};
  if (in_slots) fill_slot(number);
  if (in_slots ? edge_count * 2 > slot_mask : edge_count > FEW_EDGES) fill_slots();
  return number;
}
/* Makes the edge of an access to a location without any. */
static inline struct edge *add_first(uint32_t key, uintptr_t address) {
  uint32_t number = new_edge(0, key, address);
  edges[number].to = states_first(key, number) << 2 | (key & 3);
  return &edges[number];
}
/* Makes the edge from a state. */
static inline struct edge *add_next(history from, uint32_t key, uintptr_t address) {
  uint32_t number = new_edge(from, key, address), kind = key & 3;
  struct edge *edge = &edges[number];
  uint32_t own = from >= histories.states_of_strand ? state_own_kinds(from >> 2) : 0;
  if (own & (1u << kind | 1u << ACCESS_WRITE)) {                   /* law a_repeated_access, a_read_beside_a_write */
    edge->to = from;
    return edge;
  }
  if (kind == ACCESS_WRITE && own && (from & HISTORY_KIND) == ACCESS_READ) {
    const struct edge *read = &edges[state_edge(from >> 2)];      /* unless edges were given up since */
    if (read < edge && read->to == from && read->key >> 2 == key >> 2) {
      edge->taken_back = state_edge(from >> 2) + 1;
      from = read->from;
    }
  }
  bool conflicts = from && state_kinds(from >> 2) & conflicting[kind];
  struct settled settled;
  if (conflicts) settled = states_settle_all(from >> 2);
  if (kind == ACCESS_WRITE) {
    const struct edge *first = known_edge(0, key);
    edge->to = (first ? first : add_first(key, address))->to;
  } else {
    edge->to = states_next(from >> 2, key, own, number) << 2 | kind;
  }
  if (!conflicts) return edge;
  if (kind == ACCESS_READ) edge->address = 0;
  make_pairs(edge, &settled);
  if (all_known) return edge;
  edge_pair_count = edge->first_pair;
  edge->pair_count = UNREAD;
  unread = true;
  return edge;
}

/* The history behind an access that the one before it does not cover. */
static FLAT __attribute__((noinline)) history change(history from, uint32_t key, uintptr_t address, uint32_t bytes) {
  if (from < histories.states_of_epoch && from) {
    if (from == HISTORY_HIDDEN) return from;
    from = 0;
  }
  if (!from) *piece_mark(address) = 1;
  if (history_covers(from, (enum access)(key & 3))) return from;
  struct edge *edge = known_edge(from, key);
  if (!edge) edge = from ? add_next(from, key, address) : add_first(key, address);
  if (edge->pair_count) {
    if (!edge->bytes) { edge->address = address; unread |= edge->pair_count == UNREAD; }
    edge->bytes += bytes;
  }
  uint32_t taken_back = edge->taken_back;
  if (taken_back) {
    struct edge *read = &edges[taken_back - 1];
    if (read->made) taken_back = 0; else if (read->pair_count) read->bytes -= bytes;
  }
  if (__builtin_expect(options.members != NULL, 0)) members_pass((uint32_t)(edge - edges), taken_back, address, bytes);
  return edge->to;
}

/* ---- states that are in use ---- */

static uint32_t piece_count;                   /* that were marked when states were collected last */
static inline void each_unit(void take(history *entry)) {
  piece_count = 0;
  for (uint32_t i = 0; i < page_count; i++) {
    uint32_t *page = histories.pages[page_list[i]];
    uint8_t *marks = (uint8_t *)(page + PAGE_UNITS);
    for (uint32_t piece = 0; piece < PAGE_PIECES; piece++) {
      if (!marks[piece]) continue;
      uint32_t *unit = page + piece * PIECE_UNITS, any = 0;
      for (uint32_t *end = unit + PIECE_UNITS; unit < end; unit++) {
        if (!*unit) continue;
        if (!(*unit & HISTORY_SPLIT)) take(unit);
        else for (int byte = 0; byte < 4; byte++) take(&histories.splits[*unit & ~HISTORY_SPLIT][byte]);
        any |= *unit;
      }
      marks[piece] = any != 0;
      piece_count += any != 0;
    }
  }
}
static void mark_entry(history *entry) { if (*entry >= histories.states_of_epoch) states_mark(*entry >> 2); }
static void move_entry(history *entry) {
  if (*entry >= histories.states_of_epoch) *entry = states_moved(*entry >> 2) << 2 | (*entry & HISTORY_KIND);
  else if (*entry != HISTORY_HIDDEN) *entry = 0;
}
static __attribute__((noinline)) void collect(void) {
  states_mark_begin();
  each_unit(mark_entry);
  states_move_all();
  each_unit(move_entry);
  states_mark_end();
  histories.states_of_epoch = FIRST_STATE << 2;
}

void histories_next_strand(void) {
  histories_forget_edges();
  if (__builtin_expect(states.used > COLLECT_AFTER + COLLECT_AFTER / 256 * piece_count, 0)) collect();
  histories.states_of_strand = states.count << 2;
}
void histories_enter(uint32_t site, bool child) {
  states_enter(&scope_innermost->level, &scope_innermost[-1].level, site, child);
}
void histories_leave(void) {
  histories_forget_edges();
  states_leave(&scope_innermost->level);
}

/* Law `an_epoch`: at a moment at which no block is open anywhere (each child has returned and is synced with; one that has returned and is
   not synced with is still parallel to what follows), every strand so far precedes each that begins from there on. So what is done to a
   location before and after may be told as done to two locations. */
void histories_next_epoch(void) { histories.states_of_epoch = states.count << 2; }

/* ---- one access ---- */

static __attribute__((noinline)) uint32_t *new_page(uintptr_t address) {
  uintptr_t index = address >> PAGE_SHIFT;
  if (index >= PAGES) refuse(0, "an access at an address above 2^47");
  uint32_t *page = reserve(((size_t)1 << PAGE_SHIFT) + PAGE_PIECES);
  histories.pages[index] = page;
  page_list[page_count++] = (uint32_t)index;
  return page + ((address & (((uintptr_t)1 << PAGE_SHIFT) - 1)) >> 2);
}
static inline uint32_t *unit_at(uintptr_t address) {
  uint32_t *unit = address >> PAGE_SHIFT < PAGES ? history_unit(address) : NULL;
  return unit ? unit : new_page(address);
}

/* The four bytes of a unit get entries of their own, and one together where they are alike. */
static history *split(uint32_t *unit) {
  if (!(*unit & HISTORY_SPLIT)) {
    uint32_t number = split_free;
    if (number) split_free = histories.splits[number][0]; else number = split_count++;
    if (number >= MOST_SPLITS) refuse(0, "more than %u units of memory whose bytes differ: take a smaller input", MOST_SPLITS);
    for (int i = 0; i < 4; i++) histories.splits[number][i] = *unit;
    *unit = number | HISTORY_SPLIT;
  }
  return histories.splits[*unit & ~HISTORY_SPLIT];
}
static void unsplit(uint32_t *unit, history whole) {
  uint32_t number = *unit & ~HISTORY_SPLIT;
  histories.splits[number][0] = split_free;
  split_free = number;
  *unit = whole;
}

static void access_bytes(uint32_t *unit, uintptr_t address, uintptr_t end, uint32_t key) {
  history *four = split(unit);
  for (; address < end; address++) four[address & 3] = change(four[address & 3], key, address, 1);
  if (four[0] == four[1] && four[0] == four[2] && four[0] == four[3]) unsplit(unit, four[0]);
}

static inline uint32_t key_of(uintptr_t address, enum access kind, uintptr_t place) {
  stack_touch(address);
  site_now = place_site(place);
  return site_now << 2 | (uint32_t)kind;
}
void histories_access(uintptr_t address, size_t bytes, enum access kind, uintptr_t place) {
  uint32_t key = key_of(address, kind, place);
  uintptr_t end = address + bytes;
  if (options.raw) { raw_access(address, bytes, kind, site_now); return; }
  while (address < end) {
    uint32_t *unit = unit_at(address), alike = 1;
    uintptr_t next = (address & ~(uintptr_t)3) + 4;
    if (!(address & 3) && next <= end && !(*unit & HISTORY_SPLIT)) {
      for (; next + 4 <= end && next & (((uintptr_t)1 << PAGE_SHIFT) - 1) && unit[alike] == *unit; next += 4) alike++;
      history to = change(*unit, key, address, 4 * alike);
      for (uintptr_t piece = (address >> PIECE_SHIFT) + 1; piece < (next + (1u << PIECE_SHIFT) - 1) >> PIECE_SHIFT; piece++) *piece_mark(piece << PIECE_SHIFT) = 1;
      while (alike) unit[--alike] = to;
    } else {
      access_bytes(unit, address, next < end ? next : end, key);
    }
    address = next;
  }
}

__attribute__((noinline)) void histories_access_one(uint32_t *unit, uintptr_t address, enum access kind, uintptr_t place) {
  *unit = change(*unit, key_of(address, kind, place), address, 4);
}
__attribute__((noinline)) void histories_access_two(uint32_t *units, uintptr_t address, enum access kind, uintptr_t place) {
  uint32_t key = key_of(address, kind, place);
  if (units[0] == units[1]) {
    units[0] = units[1] = change(units[0], key, address, 8);
  } else {
    units[0] = change(units[0], key, address, 4);
    units[1] = change(units[1], key, address + 4, 4);
  }
}

static RARE void record_first(uintptr_t address, size_t bytes, enum access kind, uintptr_t place) {
  start_recording();
  record_access(address, bytes, kind, place);
}
void record_access(uintptr_t address, size_t bytes, enum access kind, uintptr_t place) {
  if (__builtin_expect(!recording_began, 0)) { record_first(address, bytes, kind, place); return; }
  if (bytes == 8) { access_memory(address, 8, kind, place); return; }
  if (bytes == 4) { access_memory(address, 4, kind, place); return; }
  histories.accesses++;
  if (histories.looking && bytes) histories_access(address, bytes, kind, place);
}

/* ---- lives ---- */

static void end_bytes(uint32_t *unit, uintptr_t address, uintptr_t from, uintptr_t to) {
  history *four = split(unit);
  for (uintptr_t i = 0; i < 4; i++) if (address + i >= from && address + i < to) four[i] = 0;
  if (four[0] == four[1] && four[0] == four[2] && four[0] == four[3]) unsplit(unit, four[0]);
}
/* Ends the lives in these units, and gives how many they are. */
static inline uint32_t end_units(uint32_t *units, uint32_t count) {
  uint32_t ended = 0;
  for (; ended < count && units[ended] && !(units[ended] & HISTORY_SPLIT); ended++) units[ended] = 0;
  return ended;
}

/* How many units there are without a history before one that has one. */
static inline uint32_t count_empty(const uint32_t *units, uint32_t count) {
  uint32_t empty = 0;
  for (uint64_t both; empty + 1 < count && (memcpy(&both, units + empty, sizeof both), !both);) empty += 2;
  while (empty < count && !units[empty]) empty++;
  return empty;
}

/* The same for the few locals of most functions: all in one page and whole units, whose bytes do not differ. */
static inline bool end_few(uintptr_t from, uintptr_t to) {
  if (to - from > 256 || (from | to) & 3 || (from ^ (to - 1)) >> PAGE_SHIFT || from >> PAGE_SHIFT >= PAGES) return false;
  uint32_t *unit = history_unit(from), *end = unit + (to - from) / 4;
  if (!unit) return true;
  for (; unit + 4 <= end; unit += 4) {
    uint64_t four[2];
    memcpy(four, unit, sizeof four);
    if (!(four[0] | four[1])) continue;
    if ((four[0] | four[1]) & ((uint64_t)HISTORY_SPLIT << 32 | HISTORY_SPLIT)) return false;
    memset(unit, 0, sizeof four);
  }
  for (; unit < end; unit++) {
    if (*unit & HISTORY_SPLIT) return false;
    *unit = 0;
  }
  return true;
}

static void end_range(uintptr_t from, uintptr_t to) {
  if (options.raw) { raw_end(from, to); return; }
  histories_tell_reads();
  if (options.members) members_end(from, to);
  if (end_few(from, to)) return;
  uintptr_t at = from & ~(uintptr_t)3;
  while (at < to && at >> PAGE_SHIFT < PAGES) {
    uint32_t *unit = history_unit(at);
    uintptr_t end = ((at >> PAGE_SHIFT) + 1) << PAGE_SHIFT;
    if (end > to) end = to;
    for (uint32_t left = unit ? (uint32_t)(end - at + 3) / 4 : 0, count; left; left -= count) {
      if (!*unit) {
        count = count_empty(unit, left);
      } else if (*unit & HISTORY_SPLIT || at < from || at + 4 > to) {
        end_bytes(unit, at, from, to);
        count = 1;
      } else {
        count = end_units(unit, (uint32_t)(end - at) / 4);
      }
      unit += count;
      at += 4 * (uintptr_t)count;
    }
    at = end;
  }
}
void end_lives(uintptr_t from, uintptr_t to) {
  if (from < to) end_range(from, to);
}

void hide_memory(uintptr_t from, uintptr_t to) {
  start_recording();
  if (options.raw) { raw_hide(from, to); return; }
  end_range(from, to);
  for (; from < to; from++) {
    uint32_t *unit = unit_at(from);
    history *four = split(unit);
    four[from & 3] = HISTORY_HIDDEN;
    *piece_mark(from) = 1;
    if (four[0] == four[1] && four[0] == four[2] && four[0] == four[3]) unsplit(unit, four[0]);
  }
}
