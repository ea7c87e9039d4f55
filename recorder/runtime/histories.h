/* The entries of memory's units: which state each location is in (states.h), and what an access changes.

   Locations with one state have one number, so a location costs four bytes for each four bytes of memory, and an access that changes
   nothing costs one look-up.

   Invariants:
   - A `history` is the number of a location's state, shifted by two, and the kind of the access that led to it; 0 is that of a location
     without any.
   - States are numbered in the order in which they are made, and a strand runs in one piece of time. So the states that the running strand
     made are exactly those from number `states_of_strand / 4` on: `history >= states_of_strand` says that it did.
   - A unit is four bytes of memory at a multiple of four. Its entry is the history of all four; or, with HISTORY_SPLIT, the number of
     four entries in `splits`, one for each byte.
   - A history below `states_of_epoch` was made before a moment at which no block was open. It has ended, though its units still
     name it.
   - A piece is 4 KiB of memory. Where it has a unit with an entry, its mark is not 0.
   - An edge leads from a state to the one behind an access by the running strand. Its pairs are made once, whatever number of locations
     take it. All edges are given up where a strand ends, and where a scope is entered or left. */
#ifndef CILKCHECK_HISTORIES_H
#define CILKCHECK_HISTORIES_H
#include "recorder.h"

typedef uint32_t history;
#define HISTORY_SPLIT 0x80000000u
#define HISTORY_HIDDEN 4u                    /* of memory that is none: a view of a reducer */
#define HISTORY_KIND 3u                      /* enum access */
#define MOST_SITES (1u << 24)

struct histories {
  uint32_t **pages;                          /* for each 4 MiB of addresses, its units' entries; and behind them, its pieces' marks */
  history (*splits)[4];
  history states_of_strand, states_of_epoch;
  uint64_t accesses;                         /* told by the program so far */
  bool looking;                              /* false where no block is open (CILKCHECK_EPOCHS), or accesses are hidden */
};
extern struct histories histories;

void histories_begin(void);
/* The running strand ends, and another begins. */
void histories_next_strand(void);
/* A scope is about to be entered. The innermost scope, a new one, is entered, by a call or spawn at that site; it is about to be left. */
void histories_forget_edges(void);
void histories_enter(uint32_t site, bool child);
void histories_leave(void);
/* What the running strand read is told, while its locations live. */
void histories_tell_reads(void);
/* The pairs of an edge, for members.c. */
const uint32_t *histories_pairs(uint32_t edge, uint32_t *count);
/* All that was done comes before all that will be done. */
void histories_next_epoch(void);
/* Whether a block is open anywhere. */
void histories_look(bool on);
void histories_stop_looking(void);
/* What could not be covered by a look at the units: any access; and one of one or two whole units, which are there. */
void histories_access(uintptr_t address, size_t bytes, enum access kind, uintptr_t place);
void histories_access_one(uint32_t *unit, uintptr_t address, enum access kind, uintptr_t place);
void histories_access_two(uint32_t *units, uintptr_t address, enum access kind, uintptr_t place);

#define PAGE_SHIFT 22
#define PAGE_UNITS (1u << (PAGE_SHIFT - 2))
#define PIECE_SHIFT 12
#define PIECE_UNITS (1u << (PIECE_SHIFT - 2))
#define PAGE_PIECES (1u << (PAGE_SHIFT - PIECE_SHIFT))
static inline uint32_t *history_unit(uintptr_t address) {
  uint32_t *page = histories.pages[address >> PAGE_SHIFT];
  return page ? page + ((address >> 2) & (PAGE_UNITS - 1)) : NULL;
}

static inline uint8_t *piece_mark(uintptr_t address) {
  return (uint8_t *)(histories.pages[address >> PAGE_SHIFT] + PAGE_UNITS) + (address >> PIECE_SHIFT & (PAGE_PIECES - 1));
}

/* Law `a_repeated_access`: whether a location has a race is decided by the set of (strand, kind) of its accesses, so an access of a
   kind that the strand's history has is left out. Law `a_read_beside_a_write`: a write conflicts with all that any access conflicts
   with, so what a strand does behind its own write is left out. (A split entry is negative, and not covered.) */
static inline bool history_covers(uint32_t entry, enum access kind) {
  return (int32_t)entry >= (int32_t)histories.states_of_strand && ((entry & HISTORY_KIND) == (uint32_t)kind || (entry & HISTORY_KIND) == ACCESS_WRITE);
}

/* An access by compiled code, of 1, 2, 4, 8 or 16 bytes. (A raw recording has no units.) */
static inline __attribute__((always_inline)) void access_memory(uintptr_t address, size_t bytes, enum access kind, uintptr_t place) {
  histories.accesses++;
  if (!histories.looking) return;
  uint32_t *unit = history_unit(address);
  if (__builtin_expect(unit != NULL, 1)) {
    if (bytes <= 4 && (address & 3) + bytes <= 4) {
      if (history_covers(*unit, kind)) return;
      if (bytes == 4 && !(*unit & HISTORY_SPLIT)) { histories_access_one(unit, address, kind, place); return; }
    }
    if (bytes == 8 && !(address & 7)) {
      if (unit[0] == unit[1] && history_covers(*unit, kind)) return;
      if (!((unit[0] | unit[1]) & HISTORY_SPLIT)) { histories_access_two(unit, address, kind, place); return; }
    }
  }
  histories_access(address, bytes, kind, place);
}

#endif
