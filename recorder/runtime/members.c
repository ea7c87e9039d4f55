/* Which bytes stand behind which cell, for tests. */
#include "members.h"
#include "histories.h"
#include "start.h"
#include <stdio.h>
#include <stdlib.h>

#define MOST_MEMBERS (1u << 26)
#define NO_EDGE UINT32_MAX
static struct passed { uintptr_t address; uint32_t life, edge; } *passed;      /* by the running strand */
static struct member { uintptr_t address; uint32_t life, pair; } *members;
static struct cell { uint32_t trace, cell, pair, life; uintptr_t address; } *cells;
static size_t passed_count, member_count, cell_count;
static uint32_t **lives;                       /* for each 4 MiB of addresses, the life of each byte */

/* (A life that was never told is not counted: the low bit says that it was.) */
static uint32_t *life_of(uintptr_t address) {
  if (!lives) lives = reserve(sizeof *lives << (47 - PAGE_SHIFT));
  uint32_t **page = &lives[address >> PAGE_SHIFT];
  if (!*page) *page = reserve(sizeof **page << PAGE_SHIFT);
  return *page + (address & (((uintptr_t)1 << PAGE_SHIFT) - 1));
}
void members_end(uintptr_t from, uintptr_t to) {
  for (; lives && from < to && from >> PAGE_SHIFT < 1u << (47 - PAGE_SHIFT); from++) {
    if (!lives[from >> PAGE_SHIFT]) from |= ((uintptr_t)1 << PAGE_SHIFT) - 1;
    else if (*life_of(from) & 1) ++*life_of(from);
  }
}

void members_pass(uint32_t edge, uint32_t taken_back, uintptr_t address, uint32_t bytes) {
  if (!passed) passed = reserve(sizeof *passed * MOST_MEMBERS);
  for (uintptr_t at = address; at < address + bytes; at++) {
    uint32_t life = *life_of(at) |= 1;
    size_t i = taken_back ? passed_count : 0;
    while (i && (passed[i - 1].address != at || passed[i - 1].life != life || passed[i - 1].edge != taken_back - 1)) i--;
    if (i) passed[i - 1].edge = NO_EDGE;
    if (passed_count < MOST_MEMBERS) passed[passed_count++] = (struct passed){at, life, edge};
  }
}
void members_strand_end(void) {
  if (!members) members = reserve(sizeof *members * MOST_MEMBERS);
  for (size_t i = 0; i < passed_count; i++) {
    uint32_t count = 0;
    if (passed[i].edge == NO_EDGE) continue;
    const uint32_t *pairs = histories_pairs(passed[i].edge, &count);
    for (uint32_t k = 0; k < count && member_count < MOST_MEMBERS; k++) members[member_count++] = (struct member){passed[i].address, passed[i].life, pairs[k]};
  }
  passed_count = 0;
}

static void add_cell(struct cell cell) {
  if (!cells) cells = reserve(sizeof *cells * MOST_MEMBERS);
  if (options.members && cell_count < MOST_MEMBERS) cells[cell_count++] = cell;
}
void members_cell(uint32_t trace, uint32_t cell, uint32_t pair) { add_cell((struct cell){trace, cell, pair, 0, 0}); }
void members_byte(uint32_t trace, uint32_t cell, uint32_t life, uintptr_t address) { add_cell((struct cell){trace, cell, 0, life, address}); }

static int by_pair(const void *a, const void *b) {
  const struct member *x = a, *y = b;
  if (x->pair != y->pair) return x->pair < y->pair ? -1 : 1;
  if (x->address != y->address) return x->address < y->address ? -1 : 1;
  return (x->life > y->life) - (x->life < y->life);
}
void members_write(void) {
  if (!options.members) return;
  FILE *file = fopen(options.members, "w");
  if (!file) refuse(0, "cannot write %s", options.members);
  if (member_count) qsort(members, member_count, sizeof *members, by_pair);
  for (size_t i = 0; i < cell_count; i++) {
    const struct cell *cell = &cells[i];
    if (cell->address) fprintf(file, "%u %u 0x%lx %u\n", cell->trace, cell->cell, cell->address, cell->life);
    size_t low = 0, high = cell->address ? 0 : member_count;
    while (low < high) { size_t middle = (low + high) / 2; if (members[middle].pair < cell->pair) low = middle + 1; else high = middle; }
    for (; !cell->address && low < member_count && members[low].pair == cell->pair; low++)
      if (!low || by_pair(&members[low - 1], &members[low])) fprintf(file, "%u %u 0x%lx %u\n", cell->trace, cell->cell, members[low].address, members[low].life);
  }
  if (fclose(file)) refuse(0, "cannot write %s", options.members);
}
