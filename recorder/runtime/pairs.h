/* The pairs of accesses of one location that conflict, and the requests that tell them.

   Law `near_pairs`: some access of a location is refused exactly where two accesses of it that are near are of parallel strands, and for
   each near pair one cell decides, anywhere in a trace, to which two strands do what those two did, at addresses that are the same behind
   any common front. So pairs that are alike in their kinds and in these addresses are one class, and a class is one cell of two accesses.

   What lies behind the common front is what is told of the two strands where all else is left out (laws `other_locations`,
   `an_empty_spawn`): the first access is so many spawned children deep, then comes a sync with them, or none, and the second access is
   so many children deep. Classes differ in their lines as well, and in the line of the spawn at which the two strands part, so that each
   of these is told.

   Law `a_read_beside_a_write` and the table of accesses: an atomic load conflicts with writes alone, so it is told as a read.

   Invariant: `ways` is a tree of spawns, by their sites; 0 is its root, and each stands behind the spawn around it. */
#ifndef CILKCHECK_PAIRS_H
#define CILKCHECK_PAIRS_H
#include "recorder.h"

/* An access is its site << 2 and its kind. `part` is the site of the spawn at which the strands part, or 0 where it was synced with, or
   there is none. `left` and `right` are the ways to the first and to the second access. `bytes` counts those that had such a pair, of
   which `address`, of that origin and offset, was the first. */
struct pair { uint32_t first, second, part, left, right, origin, offset; uintptr_t address; uint64_t bytes; };
struct way { uint32_t outer, site, depth; };
struct pairs { struct pair *list; uint32_t count; struct way *ways; uint32_t way_count; };
extern struct pairs pairs;

void pairs_begin(void);
/* The class of a pair: the first access, its path and where it parts from the running strand (states.h), and the running strand's own, at
   that address; where that is 0, no class is made. NO_PAIR where both are of one strand. */
#define NO_PAIR UINT32_MAX
#define UNKNOWN_PAIR (UINT32_MAX - 1)
uint32_t pair_of(uint32_t first, uint32_t path, const struct scope *scope, uint32_t part, uint32_t second, uintptr_t address);
/* So many bytes had that pair, the first of them at the address. */
void pair_had(uint32_t pair, uintptr_t address, uint64_t bytes);

/* The word of a request for an access of that kind beside one of the other kind: 'r', 'w' or 'b'. */
static inline char pair_word(enum access kind) {
  static const char words[] = {[ACCESS_READ] = 'r', [ACCESS_LOAD] = 'r', [ACCESS_BUMP] = 'b', [ACCESS_WRITE] = 'w'};
  return words[kind];
}

#endif
