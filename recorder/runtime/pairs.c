/* The classes of pairs. pairs.h states what they are. */
#include "pairs.h"
#include "origins.h"
#include "scopes.h"
#include "states.h"

#define MOST_PAIRS 16000000u
#define MOST_WAYS (1u << 26)

struct pairs pairs;
static uint32_t *pair_slots, pair_mask = (1u << 10) - 1;                   /* a hash table of the classes, from 1 on */
static uint32_t *way_slots, way_mask = (1u << 10) - 1;

void pairs_begin(void) {
  pairs.list = reserve(sizeof *pairs.list * MOST_PAIRS);
  pairs.ways = reserve(sizeof *pairs.ways * MOST_WAYS);
  pairs.way_count = 1;
  pair_slots = reserve(sizeof *pair_slots * (pair_mask + 1));
  way_slots = reserve(sizeof *way_slots * (way_mask + 1));
}

/* ---- ways ---- */

static uint32_t *way_slot(uint32_t outer, uint32_t site) {
  uint32_t at = (uint32_t)(((uint64_t)outer << 32 | site) * 0x9E3779B97F4A7C15u >> 32) & way_mask;
  while (way_slots[at] && (pairs.ways[way_slots[at]].outer != outer || pairs.ways[way_slots[at]].site != site)) at = (at + 1) & way_mask;
  return &way_slots[at];
}
static uint32_t way_behind(uint32_t outer, uint32_t site) {
  uint32_t *slot = way_slot(outer, site);
  if (*slot) return *slot;
  if (pairs.way_count == MOST_WAYS) refuse(0, "more than %u ways to accesses: take a smaller input", MOST_WAYS);
  pairs.ways[pairs.way_count] = (struct way){outer, site, pairs.ways[outer].depth + 1};
  *slot = pairs.way_count++;
  if (pairs.way_count * 2 > way_mask) {
    unreserve(way_slots, sizeof *way_slots * ((size_t)way_mask + 1));
    way_mask = way_mask * 4 + 3;
    way_slots = reserve(sizeof *way_slots * ((size_t)way_mask + 1));
    for (uint32_t i = 1; i < pairs.way_count; i++) *way_slot(pairs.ways[i].outer, pairs.ways[i].site) = i;
  }
  return pairs.way_count - 1;
}
/* The way of so many spawns of which the first one alone has a site. (Those of the site that was asked for last are remembered.) */
static uint32_t plain_way(uint32_t site, uint32_t depth) {
  static uint32_t *last, last_site, known;
  if (!last) last = reserve(sizeof *last * MOST_WAYS);
  if (last_site != site) known = 0;
  last_site = site;
  for (; known < depth; known++) last[known + 1] = way_behind(last[known], known ? 0 : site);
  return last[depth];
}
/* The way along the last `depth` spawns of a path, of which the first one's site is `part`. */
static uint32_t way_along(uint32_t path, uint32_t depth, uint32_t part) {
  static uint32_t *sites;
  if (!part) return plain_way(0, depth);                           /* where strands do not part, nothing of the way is told */
  if (depth > 1 && path_is_short(path)) return way_behind(plain_way(part, depth - 1), path_site(path));
  if (!sites) sites = reserve(sizeof *sites * MOST_WAYS);
  for (uint32_t i = depth; i-- > 0; path = path_outer(path)) sites[i] = path_site(path);
  sites[0] = part;
  uint32_t way = 0;
  for (uint32_t i = 0; i < depth; i++) way = way_behind(way, sites[i]);
  return way;
}
/* The way from a scope to the running strand, of so many spawns. */
static uint32_t way_from(const struct scope *scope, uint32_t depth, uint32_t part) {
  uint32_t way = 0;
  if (!part) return plain_way(0, depth);
  while (++scope <= scope_innermost) if (scope->kind == SCOPE_CHILD) way = way_behind(way, states_site(&scope->level));
  return way;
}

/* ---- classes ---- */

struct key { uint32_t first, second, part, left, right; };       /* left and right: how many spawns */
static bool is_of(const struct pair *pair, const struct key *key) {
  return pair->first == key->first && pair->second == key->second && pair->part == key->part &&
         pairs.ways[pair->left].depth == key->left && pairs.ways[pair->right].depth == key->right;
}
static struct key key_of_pair(const struct pair *pair) {
  return (struct key){pair->first, pair->second, pair->part, pairs.ways[pair->left].depth, pairs.ways[pair->right].depth};
}
static uint32_t *pair_slot(const struct key *key) {
  uint64_t hash = (uint64_t)key->first << 32 | key->second;
  hash = (hash * 0x9E3779B97F4A7C15u ^ hash >> 29) + ((uint64_t)key->part << 32 | (key->left << 16 ^ key->right));
  hash *= 0xC2B2AE3D27D4EB4Fu;
  uint32_t at = (uint32_t)(hash >> 32) & pair_mask;
  while (pair_slots[at] && !is_of(&pairs.list[pair_slots[at] - 1], key)) at = (at + 1) & pair_mask;
  return &pair_slots[at];
}
static void more_pair_slots(void) {
  unreserve(pair_slots, sizeof *pair_slots * ((size_t)pair_mask + 1));
  pair_mask = pair_mask * 4 + 3;
  pair_slots = reserve(sizeof *pair_slots * ((size_t)pair_mask + 1));
  for (uint32_t i = 0; i < pairs.count; i++) { struct key key = key_of_pair(&pairs.list[i]); *pair_slot(&key) = i + 1; }
}

uint32_t pair_of(uint32_t first, uint32_t path, const struct scope *scope, uint32_t part, uint32_t second, uintptr_t address) {
  uint32_t around = path_depth(scope->level.path), left = path_depth(path) - around, right = path_depth(scope_innermost->level.path) - around;
  /* Without the spawns between that have no access of the location (law `an_empty_spawn`) both are of one strand, and such a pair needs no
     cell (law `near_pairs`). */
  if (!left && !right) return NO_PAIR;
  struct key key = {first, second, part, left, right};
  uint32_t *slot = pair_slot(&key);
  if (*slot) return *slot - 1;
  if (!address) return UNKNOWN_PAIR;
  if (pairs.count == MOST_PAIRS) refuse(0, "more than %u kinds of pairs of accesses: take a smaller input", MOST_PAIRS);
  struct origin origin = origin_of_address(address);
  pairs.list[pairs.count] = (struct pair){first, second, part, way_along(path, left, part), way_from(scope, right, part),
                                          origin_number(&origin), (uint32_t)(address - origin.base), address, 0};
  *slot = ++pairs.count;
  if (pairs.count * 2 > pair_mask) more_pair_slots();
  return pairs.count - 1;
}
void pair_had(uint32_t number, uintptr_t address, uint64_t bytes) {
  struct pair *pair = &pairs.list[number];
  if (address == pair->address) { if (pair->bytes < bytes) pair->bytes = bytes; } else pair->bytes += bytes;
}
