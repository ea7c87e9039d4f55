/* What one call of the judge's library costs: `speed WHAT COUNT` makes COUNT of them, in a run with the usual neighbourhood. Run it twice with
   different counts under `valgrind --tool=callgrind`, and divide. WHAT:
     filtered  an access that the filter leaves out            first     an access of a new location
     judged    a read by a strand that has another record      parallel  a read of what a parallel strand read
     searched  the same, with 1,000 children outstanding       spawn     a spawn with its return, without an access
     child     a spawn, one access, its return                 call      a call with its return */
#include "../../runtime/judge.h"
#include <stdio.h>
#include <stdlib.h>
#include <string.h>
#include <time.h>

static struct cilkcheck_judge judge;
static void taken(uint32_t fault) { if (fault) { fprintf(stderr, "refused: %u\n", (unsigned)fault); exit(1); } }
#define CELLS 1024
static struct cilkcheck_cell cells[CELLS];
static struct cilkcheck_race race;
static uint64_t races;
static __attribute__((noinline)) void slow(struct cilkcheck_cell *cell, enum cilkcheck_kind kind, uint32_t site) {
  taken(cilkcheck_judge_access(&judge, cell, kind, site, &race));
  races += race.is_race;
}
static inline void access_at(struct cilkcheck_cell *cell, enum cilkcheck_kind kind, uint32_t site) {
  if (!cilkcheck_judge_repeats(&judge, cell->latest, kind)) slow(cell, kind, site);
}
/* Children that each access all cells, and that no sync follows. */
static void children(uint32_t number) {
  for (uint32_t child = 0; child < number; child++) {
    taken(cilkcheck_judge_spawn(&judge, 1 + child % 2));
    for (uint32_t i = 0; i < CELLS; i++) access_at(&cells[i], JUDGE_READ, 3);
    taken(cilkcheck_judge_return(&judge));
  }
}
static void new_strand(void) { taken(cilkcheck_judge_spawn(&judge, 9)); taken(cilkcheck_judge_return(&judge)); }

int main(int argc, char **argv) {
  if (argc != 3) return 2;
  const char *what = argv[1];
  uint64_t count = strtoull(argv[2], NULL, 10), from = 0;
  struct timespec begin, end;
  taken(cilkcheck_judge_begin(&judge));
  bool spawns = !strcmp(what, "spawn"), child = !strcmp(what, "child"), calls = !strcmp(what, "call"), first = !strcmp(what, "first");
  if (!strcmp(what, "parallel")) children(2);
  if (!strcmp(what, "searched")) children(1000);
  bool filtered = !strcmp(what, "filtered");
  clock_gettime(CLOCK_PROCESS_CPUTIME_ID, &begin);
  for (uint64_t done = 0; done < count; done++) {
    if (spawns || child) {
      taken(cilkcheck_judge_spawn(&judge, 1));
      if (child) slow(&cells[done % CELLS], JUDGE_READ, 2);
      taken(cilkcheck_judge_return(&judge));
      if (done % 8 == 7) taken(cilkcheck_judge_sync(&judge));
    } else if (calls) {
      taken(cilkcheck_judge_call(&judge));
      taken(cilkcheck_judge_return(&judge));
    } else if (first) {
      struct cilkcheck_cell cell = {0};
      slow(&cell, JUDGE_READ, 2);
    } else {
      if (!filtered && done % CELLS == 0) new_strand();
      access_at(&cells[done % CELLS], JUDGE_READ, 2);
    }
  }
  clock_gettime(CLOCK_PROCESS_CPUTIME_ID, &end);
  from = (uint64_t)(end.tv_sec - begin.tv_sec) * 1000000000u + (uint64_t)end.tv_nsec - (uint64_t)begin.tv_nsec;
  printf("%s: %.2f ns each, %llu races\n", what, (double)from / (double)count, (unsigned long long)races);
  return 0;
}
