/* Calls each function of the judge's library. First small runs with answers worked out by hand, then random runs with an oracle. Exit status
   0, or 1 where an answer is wrong. */
#include "../../runtime/judge.h"
#include <stdio.h>
#include <stdlib.h>
#include <string.h>

static struct cilkcheck_judge judge;
static int wrong;
#define EXPECT(holds) ((holds) ? (void)0 : (void)(wrong++, printf("%s:%d: wrong: %s\n", __FILE__, __LINE__, #holds)))

static void begin(void) {
  memset(&judge, 0, sizeof judge);
  EXPECT(cilkcheck_judge_begin(&judge) == JUDGE_TAKEN && judge.first == 1);
}
static void end(void) { cilkcheck_judge_end(&judge); EXPECT(!judge.judge); }
static void spawn(uint32_t site) { EXPECT(cilkcheck_judge_spawn(&judge, site) == JUDGE_TAKEN); }
static void call(void) { EXPECT(cilkcheck_judge_call(&judge) == JUDGE_TAKEN); }
static void sync(void) { EXPECT(cilkcheck_judge_sync(&judge) == JUDGE_TAKEN); }
static void returns(void) { EXPECT(cilkcheck_judge_return(&judge) == JUDGE_TAKEN); }
static struct cilkcheck_race access_cell(struct cilkcheck_cell *cell, enum cilkcheck_kind kind, uint32_t site) {
  struct cilkcheck_race race = {0};
  bool repeated = cilkcheck_judge_is_repeated(&judge, cell, kind);
  EXPECT(repeated == cilkcheck_judge_repeats(&judge, cell->latest, kind));
  struct cilkcheck_cell before = *cell;
  EXPECT(cilkcheck_judge_access(&judge, cell, kind, site, &race) == JUDGE_TAKEN);
  EXPECT(!(kind == JUDGE_READ || kind == JUDGE_WRITE) || cell->latest / 2 >= judge.first);
  EXPECT(!repeated || (cell->writer == before.writer || cell->writer >= judge.first));
  return race;
}
static uint32_t told(struct cilkcheck_cell *cell, enum cilkcheck_kind kind, uint32_t site) {
  struct cilkcheck_race race = access_cell(cell, kind, site);
  EXPECT(race.is_race || !(race.record || race.site || race.kind || race.spawn));
  return race.is_race ? race.site : 0;
}
static uint32_t reducer(uint32_t number, uint32_t site) {
  struct cilkcheck_read race = {0};
  EXPECT(cilkcheck_judge_reducer_read(&judge, number, site, &race) == JUDGE_TAKEN);
  return race.is_race ? race.site : 0;
}

/* Gives up the records that these cells do not name. */
static void reclaim(struct cilkcheck_cell *cells, uint32_t count) {
  EXPECT(cilkcheck_judge_begin_mark(&judge) == JUDGE_TAKEN);
  for (uint32_t i = 0; i < count; i++) EXPECT(cilkcheck_judge_mark(&judge, &cells[i]) == JUDGE_TAKEN);
  EXPECT(cilkcheck_judge_end_mark(&judge) == JUDGE_TAKEN);
  EXPECT(judge.first <= 4 * count + 1);
  for (uint32_t i = 0; i < count; i++) EXPECT(cilkcheck_judge_renumber(&judge, &cells[i]) == JUDGE_TAKEN);
  cilkcheck_judge_end_renumber(&judge);
}

static void small_runs(void) {
  /* a child writes and the strand beside it writes: the race names the child's write, its kind and the spawn */
  begin();
  struct cilkcheck_cell x = {0}, y = {0};
  spawn(10); EXPECT(!told(&x, JUDGE_WRITE, 11)); returns();
  struct cilkcheck_race race = access_cell(&x, JUDGE_WRITE, 12);
  EXPECT(race.is_race && race.record == 1 && race.site == 11 && race.kind == JUDGE_WRITE && race.spawn == 10);
  end();

  /* before the spawn, in the child, and behind the sync: serial */
  begin();
  memset(&x, 0, sizeof x);
  EXPECT(!told(&x, JUDGE_WRITE, 1));
  spawn(2); EXPECT(!told(&x, JUDGE_READ, 3)); EXPECT(!told(&x, JUDGE_WRITE, 4)); returns();
  sync();
  EXPECT(!told(&x, JUDGE_WRITE, 5)); EXPECT(!told(&x, JUDGE_READ, 6));
  end();

  /* parallel reads do not conflict, and a write races with one of them */
  begin();
  memset(&x, 0, sizeof x);
  spawn(1); EXPECT(!told(&x, JUDGE_READ, 2)); returns();
  spawn(3); EXPECT(!told(&x, JUDGE_READ, 4)); returns();
  EXPECT(!told(&x, JUDGE_READ, 5));
  uint32_t reader = told(&x, JUDGE_WRITE, 6);
  EXPECT(reader == 2 || reader == 4);
  end();

  /* a sync in a called function waits for that function's children alone */
  begin();
  memset(&x, 0, sizeof x); memset(&y, 0, sizeof y);
  spawn(1); EXPECT(!told(&x, JUDGE_WRITE, 2)); returns();
  call();
  spawn(3); EXPECT(!told(&y, JUDGE_WRITE, 4)); returns();
  sync();
  EXPECT(!told(&y, JUDGE_WRITE, 5));
  race = access_cell(&x, JUDGE_READ, 6);
  EXPECT(race.is_race && race.site == 2 && race.spawn == 1);
  returns();
  sync();
  EXPECT(!told(&x, JUDGE_WRITE, 7));
  end();

  /* a grandchild, which its own parent has synced with: the strands part at the outer spawn */
  begin();
  memset(&x, 0, sizeof x);
  spawn(1); spawn(2); EXPECT(!told(&x, JUDGE_WRITE, 3)); returns(); sync(); returns();
  race = access_cell(&x, JUDGE_READ, 4);
  EXPECT(race.is_race && race.site == 3 && race.spawn == 1);
  end();

  /* atomics: not with one another; an update conflicts with plain accesses, a load with plain writes alone */
  begin();
  memset(&x, 0, sizeof x); memset(&y, 0, sizeof y);
  spawn(1); EXPECT(!told(&x, JUDGE_UPDATE, 2)); EXPECT(!told(&y, JUDGE_LOAD, 3)); returns();
  EXPECT(!told(&x, JUDGE_LOAD, 4)); EXPECT(!told(&x, JUDGE_UPDATE, 5));
  EXPECT(told(&x, JUDGE_READ, 6) == 2);
  EXPECT(told(&x, JUDGE_WRITE, 7) == 2);
  EXPECT(!told(&y, JUDGE_READ, 8)); EXPECT(!told(&y, JUDGE_UPDATE, 9));
  race = access_cell(&y, JUDGE_WRITE, 10);
  EXPECT(race.is_race && race.site == 3 && race.kind == JUDGE_LOAD && race.spawn == 1);
  sync();
  EXPECT(!told(&x, JUDGE_READ, 11));
  end();

  /* reads of reducers: before a spawn and behind its sync nothing is parallel that was not; in a child and beside it there is */
  begin();
  EXPECT(!reducer(0, 1));
  spawn(2); returns(); sync();
  EXPECT(!reducer(0, 3));
  spawn(4); EXPECT(reducer(0, 5) == 1); EXPECT(!reducer(1, 6)); returns();
  EXPECT(reducer(1, 7) == 6);
  sync();
  EXPECT(reducer(0, 8) == 5);
  end();

  /* refusals */
  begin();
  EXPECT(cilkcheck_judge_return(&judge) == JUDGE_ROOT);
  call(); spawn(1);
  EXPECT(cilkcheck_judge_access(&judge, &x, 4, 1, &race) == JUDGE_KIND);
  returns();
  EXPECT(cilkcheck_judge_return(&judge) == JUDGE_UNSYNCED);
  sync(); returns();
  EXPECT(cilkcheck_judge_mark(&judge, &x) == JUDGE_NO_MARKS);
  EXPECT(cilkcheck_judge_end_mark(&judge) == JUDGE_NO_MARKS);
  EXPECT(cilkcheck_judge_renumber(&judge, &x) == JUDGE_NO_MARKS);
  end();

  /* ten children leave ten records, of which the cell names one: it gets the number 1, and still races */
  begin();
  memset(&x, 0, sizeof x); memset(&y, 0, sizeof y);
  for (uint32_t i = 0; i < 10; i++) { spawn(1); EXPECT(!told(i == 6 ? &x : &y, JUDGE_READ, 10 + i)); memset(&y, 0, sizeof y); returns(); }
  EXPECT(judge.first == 11);
  reclaim(&x, 1);
  EXPECT(judge.first == 2 && x.reader == 1);
  race = access_cell(&x, JUDGE_WRITE, 30);
  EXPECT(race.is_race && race.record == 1 && race.site == 16 && race.spawn == 1);
  end();
}

/* ---- random runs ---- */

/* The functions around a point of the run, the root first: which ones, in which block of each, and whether it was spawned. */
#define DEEPEST 12
struct path { uint32_t depth, function[DEEPEST], block[DEEPEST]; bool spawned[DEEPEST]; };
struct deed { struct path path; uint32_t kind, spawn[DEEPEST]; };
static bool conflicts(uint32_t a, uint32_t b) { return (a == JUDGE_WRITE || b == JUDGE_WRITE) || (a + b == JUDGE_READ + JUDGE_UPDATE && a != b); }
/* Whether the earlier point is in a spawned child of a function that both are in, in its present block. `part`: the depth of that child. */
static bool parallel(const struct path *earlier, const struct path *now, uint32_t *part) {
  uint32_t common = 1;
  while (common < earlier->depth && common < now->depth && earlier->function[common] == now->function[common]) common++;
  if (common == earlier->depth || !earlier->spawned[common]) return false;
  *part = common;
  return earlier->block[common - 1] == now->block[common - 1];
}
static uint64_t state;
static uint32_t below(uint32_t limit) { state = state * 6364136223846793005u + 1442695040888963407u; return (uint32_t)(state >> 33) % limit; }

#define LOCATIONS 4
#define DEEDS 400
static uint64_t random_run(uint64_t seed) {
  static struct deed deeds[LOCATIONS][DEEDS];
  static uint32_t count[LOCATIONS];
  struct cilkcheck_cell cells[LOCATIONS];
  struct path now = {.depth = 1};
  uint32_t sites[DEEPEST] = {0}, functions = 1, open[DEEPEST] = {0};
  uint64_t races = 0;
  memset(count, 0, sizeof count); memset(cells, 0, sizeof cells);
  state = seed;
  begin();
  for (uint32_t step = 0; step < DEEDS; step++) {
    uint32_t what = below(10), top = now.depth - 1;
    if (seed % 2 && !below(20)) reclaim(cells, LOCATIONS);
    if (what < 2 && now.depth < DEEPEST) {
      bool spawned = what == 0;
      if (spawned) { sites[now.depth] = 1 + below(3); spawn(sites[now.depth]); open[top] = 1; } else call();
      now.function[now.depth] = functions++; now.block[now.depth] = 0; now.spawned[now.depth] = spawned; open[now.depth] = 0;
      now.depth++;
    } else if (what == 2) {
      sync(); now.block[top]++; open[top] = 0;
    } else if (what < 5) {
      if (now.depth == 1) { EXPECT(cilkcheck_judge_return(&judge) == (open[0] ? JUDGE_UNSYNCED : JUDGE_ROOT)); continue; }
      if (open[top]) { EXPECT(cilkcheck_judge_return(&judge) == JUDGE_UNSYNCED); sync(); now.block[top]++; open[top] = 0; }
      returns(); now.depth--;
    } else {
      uint32_t at = below(LOCATIONS), kind = below(4), number = count[at], part = 0;
      if (cilkcheck_judge_repeats(&judge, cells[at].latest, kind) && below(2)) continue;
      struct cilkcheck_race race = access_cell(&cells[at], kind, number);
      bool is = false;
      for (uint32_t i = 0; i < number; i++) is |= conflicts(deeds[at][i].kind, kind) && parallel(&deeds[at][i].path, &now, &part);
      EXPECT(race.is_race == is);
      if (race.is_race) {
        races++;
        struct deed *other = &deeds[at][race.site];
        EXPECT(race.site < number && other->kind == race.kind && conflicts(race.kind, kind) && parallel(&other->path, &now, &part));
        EXPECT(race.spawn == other->spawn[part]);
      }
      deeds[at][number] = (struct deed){.path = now, .kind = kind};
      memcpy(deeds[at][number].spawn, sites, sizeof sites);
      count[at]++;
    }
  }
  end();
  return races;
}

int main(int argc, char **argv) {
  uint64_t runs = argc > 1 ? strtoull(argv[1], NULL, 10) : 2000, races = 0;
  small_runs();
  for (uint64_t seed = 0; seed < runs && wrong < 10; seed++) {
    int before = wrong;
    races += random_run(seed);
    if (wrong != before) printf("in the run of seed %llu\n", (unsigned long long)seed);
  }
  printf("%llu random runs, %llu accesses that race, %d answers wrong\n", (unsigned long long)runs, (unsigned long long)races, wrong);
  return wrong != 0;
}
