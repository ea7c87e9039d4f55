/* What of a location's accesses a later one may race with, and where in the tree of scopes these lie.

   A location's state is what it was accessed by since it was last written, the write included. Law `near_pairs`: a write conflicts with
   whatever conflicts with an access before it, so no later access makes a near pair with that one, and it is forgotten. Locations with one
   state share it.

   An access of a state is told by its site, its kind, and its path: the sites of the spawns around it. Two accesses that agree in these,
   and in which block of the innermost open scope around both they lie, make the same pairs (pairs.h) with whatever follows: one of them
   is kept.

   A state is a list of frames, each within the scope of the one behind it. A frame has the accesses that lie in its scope, and in no
   scope of the next frame: the plain ones, by the scope's own strands and by children that were synced with; and those of each child of
   the scope's block `block`, by the site at which it was spawned.

   Invariants:
   - Nodes are numbered in the order in which scopes were entered. So the innermost open scope around a node is the innermost one whose
     node has no larger number.
   - A state's frames are of scopes of which each is within the next. Where one has ended, its accesses are a child's, or plain ones, of
     the innermost open one: states_settle finds that when the state is used again.
   - An access that conflicts with none of a state's makes no pair, and only puts a frame of its own before the others. So the first
     `loose` frames of a state come in the order of their accesses, the last one first: the open scopes around them are each within, or
     the same as, that of the next one.
   - A set is a list of cells in ascending order, and cells are made once: two sets are equal where their numbers are.
   - `what` of a state holds, from the low bits on: the kinds of all its accesses; the kinds of those by the strand that made it; the
     number of the edge that led to it (histories.c), while that strand runs. */
#ifndef CILKCHECK_STATES_H
#define CILKCHECK_STATES_H
#include "recorder.h"

#define FIRST_STATE 2u
#define MOST_STATES (1u << 26)
#ifndef MOST_LOOSE                            /* then they are settled: so each is looked at a few times; tests have few */
#define MOST_LOOSE 128u
#endif
struct state { uint32_t outer, node, block, plain, kids, what, loose; };
struct states { struct state *list; uint32_t count, used; };     /* used: states and nodes that were made since states_move_all */
extern struct states states;
static inline uint32_t state_kinds(uint32_t state) { return states.list[state].what & 15; }
static inline uint32_t state_own_kinds(uint32_t state) { return states.list[state].what >> 4 & 15; }
static inline uint32_t state_edge(uint32_t state) { return states.list[state].what >> 8; }
#define MOST_EDGES (1u << 24)

void states_begin(void);
/* A scope is entered: `level` is its own, `around` that of the scope around it. */
void states_enter(struct level *level, const struct level *around, uint32_t site, bool child);
void states_leave(const struct level *level);
/* The scope has synced. */
static inline void states_sync(struct level *level) { level->block++; }
/* The site of the spawn or call by which the scope was entered. */
uint32_t states_site(const struct level *level);

/* A state seen from the running strand: the frame of the innermost open scope, and what is around it. */
struct settled { uint32_t outer, plain, kids; struct scope *scope; };
struct settled states_settle(uint32_t state);
/* The same, where none of what is around it is loose. */
struct settled states_settle_all(uint32_t state);
/* The state behind an access (site << 2 | kind) by the running strand; and behind one of a location without any. */
uint32_t states_next(uint32_t state, uint32_t access, uint32_t own_kinds, uint32_t edge);
uint32_t states_first(uint32_t access, uint32_t edge);

/* Each access of a state that is settled with all around it, whose kind is in the mask: the access; its path; the scope in which it parts from
   the running strand; and the site of the spawn at which it does, or 0 where that spawn's block was synced, or there is none. */
typedef void take_access(uint32_t access, uint32_t path, const struct scope *scope, uint32_t part);
void states_each(const struct settled *settled, uint32_t kinds, take_access *take);

/* Paths: how many spawns, and their sites from the innermost on. (Where there are very many paths, those as long and with the same
   innermost spawn are one: then the site of the others is 0.) */
uint32_t path_depth(uint32_t path);
uint32_t path_outer(uint32_t path);
uint32_t path_site(uint32_t path);
/* Whether of the path the innermost spawn alone is known. */
bool path_is_short(uint32_t path);

/* Gives up all states but those that are marked, each of which becomes another one that states_moved tells up to the end. */
void states_mark_begin(void);
void states_mark(uint32_t state);
void states_move_all(void);
uint32_t states_moved(uint32_t state);
void states_mark_end(void);

#endif
