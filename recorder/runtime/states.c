/* The states of locations. states.h states the invariants. */
#include "states.h"
#include "scopes.h"
#include <string.h>

#define MOST_NODES (1u << 26)
#define MOST_CELLS (1u << 27)
#define MOST_PATHS (1u << 26)
#define EXACT_PATHS 1024u
#define NO_PATH UINT32_MAX
#define UNIONS 4096u

struct states states;
static struct node { uint32_t around, block, what; } *nodes;     /* the scope around, and in which block of it; site, and whether a child */
static uint32_t node_count = 1;

/* An element of a set, and the rest of it. `kinds`: of all accesses of the set. An element is a path and an access; of the set of a block's
   children, it is CHILDREN, a site, and the set of the accesses in the children that were spawned there. */
#define CHILDREN ((uint64_t)1 << 63)
#define CHILD_SITE(element) ((uint32_t)((element) >> 32) & (CHILD_SITES - 1))
#define CHILD_SITES (1u << 24)
static struct cell { uint64_t element; uint32_t rest, kinds; } *cells;
static uint32_t cell_count = 1, *cell_slots, cell_mask = (1u << 12) - 1;
static struct { uint32_t one, other, both; } unions[UNIONS];
static uint64_t *merged;                                         /* elements that a union puts before a tail */

static struct path { uint32_t outer, site, depth, last_site, last; } *paths;       /* last: the path behind this one that was asked for last */
static uint32_t path_count = 1, *path_slots, path_mask = (1u << 10) - 1;

void states_begin(void) {
  states.list = reserve(sizeof *states.list * MOST_STATES);
  states.count = FIRST_STATE;
  nodes = reserve(sizeof *nodes * MOST_NODES);
  cells = reserve(sizeof *cells * MOST_CELLS);
  cell_slots = reserve(sizeof *cell_slots * (cell_mask + 1));
  merged = reserve(sizeof *merged * MOST_CELLS);
  paths = reserve(sizeof *paths * MOST_PATHS);
  path_slots = reserve(sizeof *path_slots * (path_mask + 1));
}

/* ---- paths ---- */

uint32_t path_depth(uint32_t path) { return paths[path].depth; }
uint32_t path_outer(uint32_t path) { return paths[path].outer == NO_PATH ? 0 : paths[path].outer; }
bool path_is_short(uint32_t path) { return paths[path].outer == NO_PATH; }
uint32_t path_site(uint32_t path) { return paths[path].site; }

static uint32_t path_hash(const struct path *path) {
  return (uint32_t)((((uint64_t)path->outer << 32 | path->site) + path->depth * 0xC2B2AE3D27D4EB4Fu) * 0x9E3779B97F4A7C15u >> 32);
}
static uint32_t *path_slot(const struct path *path) {
  uint32_t at = path_hash(path) & path_mask;
  for (; path_slots[at]; at = (at + 1) & path_mask) {
    const struct path *other = &paths[path_slots[at]];
    if (other->outer == path->outer && other->site == path->site && other->depth == path->depth) break;
  }
  return &path_slots[at];
}
static RARE uint32_t path_of(uint32_t outer, uint32_t site) {
  struct path path = {outer, site, paths[outer].depth + 1, 0, 0};
  if (outer && paths[outer].outer == NO_PATH) path.outer = NO_PATH;
  uint32_t *slot = path_slot(&path);
  if (!*slot && path_count >= EXACT_PATHS) { path.outer = NO_PATH; slot = path_slot(&path); }
  if (*slot) return *slot;
  if (path_count == MOST_PATHS) refuse(0, "more than %u spawns at once", MOST_PATHS);
  paths[path_count] = path;
  *slot = path_count++;
  if (path_count * 2 > path_mask) {
    unreserve(path_slots, sizeof *path_slots * ((size_t)path_mask + 1));
    path_mask = path_mask * 4 + 3;
    path_slots = reserve(sizeof *path_slots * ((size_t)path_mask + 1));
    for (uint32_t i = 1; i < path_count; i++) *path_slot(&paths[i]) = i;
  }
  return path_count - 1;
}

static inline uint32_t path_behind(uint32_t outer, uint32_t site) {
  struct path *path = &paths[outer];
  if (path->last_site != site || !path->last) {
    path->last = path_of(outer, site);
    path->last_site = site;
  }
  return path->last;
}

/* ---- scopes ---- */

void states_enter(struct level *level, const struct level *around, uint32_t site, bool child) {
  if (node_count == MOST_NODES) refuse(0, "more than %u calls and spawns at once", MOST_NODES);
  nodes[node_count] = (struct node){around->node, around->block, site << 1 | child};
  level->node = node_count++;
  level->first = states.count;
  level->block = 0;
  level->path = child ? path_behind(around->path, site) : around->path;
  states.used++;
}
void states_leave(const struct level *level) {
  if (states.count == level->first) node_count = level->node;    /* no state names a scope that was entered since */
}
uint32_t states_site(const struct level *level) { return nodes[level->node].what >> 1; }

/* The innermost open scope around a node. */
static struct scope *scope_around(uint32_t node) {
  struct scope *high = scope_innermost, *low = scope_outermost;  /* the root's node is 0 */
  if (high->level.node <= node) return high;
  for (int i = 0; i < 8; i++, high--) if (high[-1].level.node <= node) return high - 1;
  while (high - low > 1) { struct scope *middle = low + (high - low) / 2; if (middle->level.node <= node) low = middle; else high = middle; }
  return low;
}

/* ---- sets ---- */

static uint32_t cell_hash(uint64_t element, uint32_t rest) {
  uint64_t mixed = (element ^ (uint64_t)rest * 0xC2B2AE3D27D4EB4Fu) * 0x9E3779B97F4A7C15u;
  return (uint32_t)(mixed >> 32 ^ mixed >> 17);
}
static uint32_t *cell_slot(uint64_t element, uint32_t rest) {
  uint32_t at = cell_hash(element, rest) & cell_mask;
  while (cell_slots[at] && (cells[cell_slots[at]].element != element || cells[cell_slots[at]].rest != rest)) at = (at + 1) & cell_mask;
  return &cell_slots[at];
}
static __attribute__((noinline)) uint32_t cell_of(uint64_t element, uint32_t rest, uint32_t kinds) {
  uint32_t *slot = cell_slot(element, rest);
  if (*slot) return *slot;
  if (cell_count == MOST_CELLS) refuse(0, "more than %u sets of accesses: take a smaller input", MOST_CELLS);
  cells[cell_count] = (struct cell){element, rest, kinds | cells[rest].kinds};
  *slot = cell_count++;
  if (cell_count * 2 > cell_mask) {
    unreserve(cell_slots, sizeof *cell_slots * ((size_t)cell_mask + 1));
    cell_mask = cell_mask * 4 + 3;
    cell_slots = reserve(sizeof *cell_slots * ((size_t)cell_mask + 1));
    for (uint32_t i = 1; i < cell_count; i++) *cell_slot(cells[i].element, cells[i].rest) = i;
  }
  return cell_count - 1;
}
/* (The sets of one access come again and again: those that were asked for last are remembered.) */
static uint32_t set_of(uint32_t path, uint32_t access) {
  static struct { uint64_t element; uint32_t set; } last[UNIONS];
  uint64_t element = (uint64_t)path << 32 | access;
  uint32_t at = (path * 61 + access) % UNIONS;
  if (last[at].element != element || !last[at].set) {
    last[at].set = cell_of(element, 0, 1u << (access & 3));
    last[at].element = element;
  }
  return last[at].set;
}

/* The union of two sets of accesses. */
static uint32_t unite(uint32_t one, uint32_t other) {
  if (!one || one == other) return other;
  if (!other) return one;
  uint32_t at = (one * 31 + other) % UNIONS, first = one, second = other, count = 0;
  if (unions[at].one == one && unions[at].other == other) return unions[at].both;
  while (one && other && one != other) {
    uint64_t a = cells[one].element, b = cells[other].element;
    merged[count++] = a < b ? a : b;
    if (a <= b) one = cells[one].rest;
    if (b <= a) other = cells[other].rest;
  }
  uint32_t both = one ? one : other;
  while (count) { uint64_t element = merged[--count]; both = cell_of(element, both, 1u << (element & 3)); }
  unions[at].one = first;
  unions[at].other = second;
  return unions[at].both = both;
}
/* The accesses of all children. */
static uint32_t of_children(uint32_t kids) {
  uint32_t all = 0;
  for (; kids; kids = cells[kids].rest) all = unite(all, (uint32_t)cells[kids].element);
  return all;
}
/* The children with those of a spawn at that site added. (They are few, and the same come again and again.) */
static uint32_t add_child(uint32_t kids, uint32_t site, uint32_t set) {
  uint32_t rest = kids ? cells[kids].rest : 0, first = kids ? CHILD_SITE(cells[kids].element) : UINT32_MAX;
  if (first < site) {
    rest = add_child(rest, site, set);
    set = (uint32_t)cells[kids].element;
    site = first;
  } else if (first == site) {
    set = unite((uint32_t)cells[kids].element, set);
  } else {
    rest = kids;
  }
  return cell_of(CHILDREN | (uint64_t)site << 32 | set, rest, cells[set].kinds);
}
static uint32_t with_child(uint32_t kids, uint32_t site, uint32_t set) {
  static struct { uint32_t kids, site, set, all; } last[UNIONS];
  uint32_t at = (kids * 31 + site * 7 + set) % UNIONS;
  if (last[at].kids != kids || last[at].site != site || last[at].set != set) {
    last[at].all = add_child(kids, site, set);
    last[at].kids = kids;
    last[at].site = site;
    last[at].set = set;
  }
  return last[at].all;
}

/* ---- states ---- */

static inline uint32_t push_state(uint32_t outer, const struct level *level, uint32_t plain, uint32_t kids, uint32_t own, uint32_t loose) {
  if (states.count == MOST_STATES) refuse(0, "more than %u states of locations: take a smaller input", MOST_STATES);
  uint32_t kinds = (outer ? state_kinds(outer) : 0) | cells[plain].kinds | cells[kids].kinds;
  states.list[states.count] = (struct state){outer, level->node, level->block, plain, kids, kinds | own << 4, loose};
  states.used++;
  return states.count++;
}

/* The outermost node around one, or itself, that lies in this scope's. (What is between has ended, and is never the innermost open one
   again: so the way up is made shorter.) */
static inline uint32_t outermost_within(uint32_t node, uint32_t scope) {
  for (uint32_t around; (around = nodes[node].around) != scope; node = around)
    if (nodes[around].around != scope) nodes[node].around = nodes[around].around;
  return node;
}
/* Frames that lie in the scope of the first one come before all others. */
struct settled states_settle(uint32_t state) {
  struct settled settled = {.scope = scope_around(states.list[state].node)};
  const struct level *level = &settled.scope->level;
  do {
    const struct state *frame = &states.list[state];
    uint32_t node = frame->node, within = frame->plain, kids = frame->kids;
    bool is_own = node == level->node, is_child = false;
    if (!is_own) {
      node = outermost_within(node, level->node);
      is_child = nodes[node].what & 1 && nodes[node].block == level->block;
    }
    if (kids && is_own && frame->block == level->block) {
      if (!settled.kids) settled.kids = kids;
      else for (; kids; kids = cells[kids].rest) settled.kids = with_child(settled.kids, CHILD_SITE(cells[kids].element), (uint32_t)cells[kids].element);
    } else if (kids) {
      within = unite(within, of_children(kids));                   /* they were synced with since, or where the scope ended */
    }
    if (is_child) settled.kids = with_child(settled.kids, nodes[node].what >> 1, within);
    else settled.plain = unite(settled.plain, within);             /* a function syncs with its children when it ends */
    state = frame->outer;
  } while (state && states.list[state].node >= level->node);
  settled.outer = state;
  return settled;
}

/* Makes a state that is not loose of one that is. */
static void tidy(uint32_t state) {
  struct settled frames[MOST_LOOSE + 2];
  uint32_t count = 0, outer = state;
  do {
    frames[count] = states_settle(outer);
    outer = frames[count++].outer;
  } while (outer && (states.list[outer].loose || scope_around(states.list[outer].node)->level.node != states.list[outer].node));
  while (--count) outer = push_state(outer, &frames[count].scope->level, frames[count].plain, frames[count].kids, 0, 0);
  const struct level *level = &frames[0].scope->level;
  states.list[state] = (struct state){outer, level->node, level->block, frames[0].plain, frames[0].kids, states.list[state].what, 0};
}

uint32_t states_first(uint32_t access, uint32_t edge) {
  const struct level *level = &scope_innermost->level;
  return push_state(0, level, set_of(level->path, access), 0, 1u << (access & 3) | edge << 4, 0);
}
uint32_t states_next(uint32_t state, uint32_t access, uint32_t own_kinds, uint32_t edge) {
  const struct level *level = &scope_innermost->level;
  if (states.list[state].loose == MOST_LOOSE) tidy(state);
  uint32_t own = own_kinds | 1u << (access & 3) | edge << 4;
  return push_state(state, level, set_of(level->path, access), 0, own, states.list[state].loose + 1);
}

static void each_of(uint32_t set, uint32_t kinds, const struct scope *scope, uint32_t part, take_access *take) {
  for (; set && cells[set].kinds & kinds; set = cells[set].rest) {
    uint64_t element = cells[set].element;
    if (kinds & 1u << (element & 3)) take((uint32_t)element, (uint32_t)(element >> 32), scope, part);
  }
}
static void each_of_children(uint32_t kids, uint32_t kinds, const struct scope *scope, bool synced, take_access *take) {
  for (; kids && cells[kids].kinds & kinds; kids = cells[kids].rest) {
    uint64_t element = cells[kids].element;
    each_of((uint32_t)element, kinds, scope, synced ? 0 : CHILD_SITE(element), take);
  }
}
struct settled states_settle_all(uint32_t state) {
  if (states.list[state].loose) tidy(state);
  return states_settle(state);
}
void states_each(const struct settled *settled, uint32_t kinds, take_access *take) {
  const struct scope *scope = settled->scope;
  each_of(settled->plain, kinds, scope, 0, take);
  each_of_children(settled->kids, kinds, scope, false, take);
  for (uint32_t at = settled->outer; at && state_kinds(at) & kinds; at = states.list[at].outer) {
    const struct state *frame = &states.list[at];
    while (scope->level.node > frame->node) scope--;
    each_of(frame->plain, kinds, scope, 0, take);
    each_of_children(frame->kids, kinds, scope, frame->block != scope->level.block, take);
  }
}

/* ---- states that are given up ---- */

/* What each state that is kept becomes: 0 of others, 1 until it is known. `kept` lists those. */
static uint32_t *moved, *kept, kept_count;
static struct state *old_list, *other_list;
static uint32_t *made, made_mask;                                /* a hash table of the states that were moved: like ones become one */

void states_mark_begin(void) {
  kept_count = 0;
  if (moved) return;
  moved = reserve(sizeof *moved * MOST_STATES);
  kept = reserve(sizeof *kept * MOST_STATES);
  made = reserve(sizeof *made * MOST_STATES * 4);
  other_list = reserve(sizeof *other_list * MOST_STATES);
}
static void keep(uint32_t state, uint32_t as) {
  if (!moved[state]) kept[kept_count++] = state;
  moved[state] = as;
}
void states_mark(uint32_t state) { if (!moved[state]) keep(state, 1); }
uint32_t states_moved(uint32_t state) { return moved[state]; }
void states_mark_end(void) { while (kept_count) moved[kept[--kept_count]] = 0; }

static uint32_t made_slot(const struct state *state) {
  uint64_t mixed = ((uint64_t)state->outer << 32 | state->node) * 0x9E3779B97F4A7C15u;
  mixed = (mixed ^ mixed >> 29 ^ ((uint64_t)state->plain << 32 | state->kids)) * 0xC2B2AE3D27D4EB4Fu;
  uint32_t at = (uint32_t)((mixed ^ mixed >> 31) + state->block) & made_mask;
  while (made[at] && memcmp(&states.list[made[at]], state, sizeof *state)) at = (at + 1) & made_mask;
  return at;
}
static void begin_made(uint32_t mask) {
  made_mask = mask;
  memset(made, 0, sizeof *made * ((size_t)mask + 1));
  for (uint32_t i = FIRST_STATE; i < states.count; i++) made[made_slot(&states.list[i])] = i;
}
static uint32_t make(struct state state) {
  uint32_t at = made_slot(&state);
  if (made[at]) return made[at];
  states.list[states.count] = state;
  made[at] = states.count++;
  if (states.count > made_mask / 2) begin_made(made_mask * 4 + 3);
  return states.count - 1;
}

/* Moves a state, whose outer ones come first. */
static uint32_t *chain, chain_room; static struct settled *chain_settled;
static void move_state(uint32_t state, struct state *list) {
  uint32_t count = 0;
  for (uint32_t at = state; at && moved[at] <= 1; at = chain_settled[count - 1].outer) {
    states.list = old_list;
    chain[count] = at;
    chain_settled[count++] = states_settle(at);
  }
  states.list = list;
  while (count--) {
    const struct settled *settled = &chain_settled[count];
    uint32_t outer = settled->outer ? moved[settled->outer] : 0, kinds = outer ? state_kinds(outer) : 0;
    kinds |= cells[settled->plain].kinds | cells[settled->kids].kinds;
    uint32_t node = (uint32_t)(settled->scope - scope_outermost), block = settled->kids ? settled->scope->level.block : 0;
    keep(chain[count], make((struct state){outer, node, block, settled->plain, settled->kids, kinds, 0}));
  }
}

void states_move_all(void) {
  uint32_t open = (uint32_t)(scope_innermost - scope_outermost);
  if (open >= chain_room) {
    if (chain_room) { unreserve(chain, sizeof *chain * chain_room); unreserve(chain_settled, sizeof *chain_settled * chain_room); }
    chain_room = 2 * open + 1000;
    chain = reserve(sizeof *chain * chain_room);
    chain_settled = reserve(sizeof *chain_settled * chain_room);
  }
  old_list = states.list;
  states.count = FIRST_STATE;
  begin_made(1023);
  for (uint32_t i = 0, marked = kept_count; i < marked; i++) if (moved[kept[i]] == 1) move_state(kept[i], other_list);
  states.list = other_list;
  other_list = old_list;
  for (uint32_t i = 1; i <= open; i++) {
    struct level *level = &scope_outermost[i].level;
    nodes[i] = (struct node){i - 1, nodes[level->node].block, nodes[level->node].what};
    level->node = i;
    level->first = 0;                                            /* states name it that were made before it was entered */
  }
  node_count = open + 1;
  states.used = 0;
}
