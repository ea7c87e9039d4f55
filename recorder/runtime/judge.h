/* The judge of accesses: a static library that is proved (crates/judge_library), or built without its proofs (tools/build-unproved
   --library). It is told the strands of one serial run, and says of each access which earlier one it races with.

   A location's accesses are kept in a cell, which C keeps and the library reads and writes. The library holds no address.

   What C owes, since nothing checks it:
   - Cells. Each location has one cell in each of its lives. It is all zeros at the start of a life. Then only cilkcheck_judge_access changes
     it, once for each access, in the order of the run, by the judge of that run, and cilkcheck_judge_renumber. Locations with equal cells may
     share one call.
   - Reclaiming. From cilkcheck_judge_begin_mark to cilkcheck_judge_end_mark no access is told, and each cell that is ever used again is
     marked. Then each of these is renumbered once, before it is used and before the next mark begins.
   - Order. Calls, spawns, syncs and returns come in the order of the run. At a spawn the run goes on in the child, at the child's return
     beside its spawn. A function syncs before it returns.
   - Handles. A handle is all zeros before cilkcheck_judge_begin. From then on C reads `first` alone. One call at a time has it, and no call is
     made in a signal handler. Behind cilkcheck_judge_begin that answers JUDGE_MEMORY no other call is made.
   - Pointers. They are not null, and what one call is given does not overlap.
   - Memory. Who links the library defines rattle_alloc, rattle_realloc and rattle_dealloc (judge_heap.c).

   Each access has to be told but for those of which cilkcheck_judge_repeats is true. A call that is refused changes nothing. */
#ifndef CILKCHECK_JUDGE_H
#define CILKCHECK_JUDGE_H
#include <stdbool.h>
#include <stdint.h>

struct cilkcheck_judge {
  void *judge;
  uint32_t first;          /* the number of the running strand's first record */
};

/* What is kept of one location: numbers of records, 0 for none. `latest` is twice the number of the last plain access, and one more where
   it was a write. `updater` and `loader` stay 0 where nothing atomic was told. */
struct cilkcheck_cell { uint32_t latest, writer, reader, updater, loader; };

/* Two of LOAD and UPDATE never conflict, two of READ and LOAD neither. */
enum cilkcheck_kind {
  JUDGE_READ,
  JUDGE_LOAD,              /* an atomic load */
  JUDGE_UPDATE,            /* an atomic store or read-modify-write */
  JUDGE_WRITE
};

/* What a call answers: 0 where it is taken, else why it is refused. */
enum cilkcheck_fault {
  JUDGE_TAKEN,
  JUDGE_UNSYNCED,          /* a function returns with children that no sync waited for */
  JUDGE_ROOT,              /* the root function returns */
  JUDGE_RECORDS,           /* there are 2^30 records, and another one is wanted */
  JUDGE_EVENTS,            /* there were 2^62 calls, spawns, syncs and returns */
  JUDGE_MEMORY,
  JUDGE_KIND,              /* no enum cilkcheck_kind */
  JUDGE_NO_MARKS           /* no mark has begun, or none has ended */
};

/* An earlier access that conflicts with the new one and is parallel to it. `record` is its number, `site` and `kind` are as they were told.
   `spawn` is the site of the spawn where the two strands part: the earlier one is in the child. */
struct cilkcheck_race {
  bool is_race;            /* false: there is none, and the rest is 0 */
  uint32_t record, site, kind, spawn;
};
/* An earlier read of the same reducer by a strand with another view. */
struct cilkcheck_read {
  bool is_race;
  uint32_t site;
};

/* Begins a run at its first strand. */
uint32_t cilkcheck_judge_begin(struct cilkcheck_judge *judge);
/* Ends it, and frees all memory. The handle is all zeros again. */
void cilkcheck_judge_end(struct cilkcheck_judge *judge);

/* The running strand calls a function; spawns one, at this site; syncs in its function; its function returns. */
uint32_t cilkcheck_judge_call(struct cilkcheck_judge *judge);
uint32_t cilkcheck_judge_spawn(struct cilkcheck_judge *judge, uint32_t site);
uint32_t cilkcheck_judge_sync(struct cilkcheck_judge *judge);
uint32_t cilkcheck_judge_return(struct cilkcheck_judge *judge);

/* The running strand accesses the location with this cell. */
uint32_t cilkcheck_judge_access(struct cilkcheck_judge *judge, struct cilkcheck_cell *cell, uint32_t kind, uint32_t site, struct cilkcheck_race *race);
/* The running strand reads the view of a reducer. Reducers have small numbers. */
uint32_t cilkcheck_judge_reducer_read(struct cilkcheck_judge *judge, uint32_t reducer, uint32_t site, struct cilkcheck_read *race);

/* Gives up the records that no cell names. The numbers of those that stay keep their order, and `first` is less: a run starts with
   first == 1, and first - 1 is the number of records at the start of the strand. */
uint32_t cilkcheck_judge_begin_mark(struct cilkcheck_judge *judge);
uint32_t cilkcheck_judge_mark(struct cilkcheck_judge *judge, const struct cilkcheck_cell *cell);
uint32_t cilkcheck_judge_end_mark(struct cilkcheck_judge *judge);
uint32_t cilkcheck_judge_renumber(struct cilkcheck_judge *judge, struct cilkcheck_cell *cell);
/* Frees what renumbering takes: 4 bytes for each record that there was. */
void cilkcheck_judge_end_renumber(struct cilkcheck_judge *judge);

/* Whether an access need not be told: the running strand was the last to access the location plainly, and what races with the new access
   races with that one. */
bool cilkcheck_judge_is_repeated(struct cilkcheck_judge *judge, const struct cilkcheck_cell *cell, uint32_t kind);
/* The same, without a call. tests/judge/calls.c compares the two. */
static inline bool cilkcheck_judge_repeats(const struct cilkcheck_judge *judge, uint32_t latest, enum cilkcheck_kind kind) {
  return latest / 2 >= judge->first && (latest % 2 || kind <= JUDGE_LOAD);
}

#endif
