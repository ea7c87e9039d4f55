/* A trace's requests. control.h states what they are. */
#include "control.h"
#include "histories.h"
#include "log.h"
#include "pairs.h"
#include "raw.h"
#include <string.h>

#define MOST_SCOPES (1u << 24)

/* A scope of the program as the trace tells it: a child or a call, or a part of the one around it. */
struct told { bool child, called, open, idle; uint32_t join, next, site, idle_site; };
static struct told *scopes, *top;
static struct trace *trace;
static struct text *text;
static uint32_t strand, next_strand;

/* ---- lines ---- */

/* What a line ends with, for each site that occurred: ` @K` and a line feed; and behind an access's cell, of a read and of the others. */
static struct endings { struct text_piece line, read, write; } *endings;
static struct endings *make_endings(uint32_t site) {
  static const char *const before[] = {"", "]", "] 0"};
  struct endings *made = &endings[site];
  struct text_piece *pieces[] = {&made->line, &made->read, &made->write};
  for (int i = 0; i < 3; i++) {
    struct text_piece *piece = pieces[i];
    uint32_t length = (uint32_t)strlen(before[i]);
    memcpy(piece->bytes, before[i], length);
    if (site) {
      memcpy(piece->bytes + length, " @", 2);
      length += 2 + (uint32_t)text_put_number(piece->bytes + length + 2, site);
    }
    piece->bytes[length++] = '\n';
    piece->length = length;
  }
  return made;
}
static inline const struct endings *ending(uint32_t site) {
  trace->sites[site / 64] |= (uint64_t)1 << site % 64;
  struct endings *found = &endings[site];
  return __builtin_expect(found->line.length != 0, 1) ? found : make_endings(site);
}
static inline void end_request(const struct text_piece *piece) {
  text_piece(text, piece);
  trace->requests++;
  if (__builtin_expect(text->used > TEXT_BUFFER - LONGEST_LINE, 0)) text_flush(text);
}
static void mark(uint32_t site) { end_request(&ending(site)->line); }
#define PUT(word, site) (text_word(text, word " "), text_number(text, strand), mark(site))

/* What the running strand's accesses begin with: the word, the strand's number, ` c[`. */
static struct text_piece reads, writes, bumps;
static void make_beginnings(void) {
  char number[16];
  size_t length = text_put_number(number, strand);
  memcpy(number + length, " c[", 3);
  length += 3;
  memcpy(reads.bytes, "read ", 5);
  memcpy(reads.bytes + 5, number, 16);
  reads.length = 5 + (uint32_t)length;
  memcpy(writes.bytes, "write ", 6);
  memcpy(writes.bytes + 6, number, 16);
  writes.length = 6 + (uint32_t)length;
  memcpy(bumps.bytes, "bump ", 5);
  memcpy(bumps.bytes + 5, number, 16);
  bumps.length = 5 + (uint32_t)length;
}

static inline void put_access(char request, uint32_t cell, const struct endings *end) {
  text_piece(text, request == 'r' ? &reads : request == 'w' ? &writes : &bumps);
  text_number(text, cell);
  end_request(request == 'r' ? &end->read : &end->write);
}

static void begin(struct trace *of) {
  if (!scopes) {
    scopes = reserve(sizeof *scopes * MOST_SCOPES);
    endings = reserve(sizeof *endings * MOST_SITES);
  }
  trace = of;
  text = of->text;
  trace->requests = 0;
  strand = 0;
  next_strand = 1;
  top = scopes;
  *top = (struct told){.child = true};
}
static bool is_full(void) { return trace->requests > trace->most_requests || text_length(text) > trace->most_bytes; }

static void push(struct told scope) {
  if (++top == scopes + MOST_SCOPES) refuse(0, "more than %u calls and spawns at once", MOST_SCOPES);
  *top = scope;
}
static void leave(uint32_t site) {
  if (top->called) PUT("return", site);
  top--;
}
/* A function with children is a call where a scope around it, up to the innermost child, has children outstanding. */
static void call_where_needed(struct told *scope, uint32_t site) {
  if (scope->open || scope->called || scope->child) return;
  const struct told *around = scope - 1;
  while (!around->open && !around->child) around--;
  if (!around->open) return;
  PUT("call", site);
  scope->called = true;
}
static uint32_t spawn(struct told *scope, uint32_t site) {
  call_where_needed(scope, site);
  PUT("spawn", site);
  uint32_t child = next_strand;
  next_strand += 2;
  if (!scope->open) { scope->open = true; scope->join = next_strand++; }
  return child;
}
static void end_child(uint32_t site) {
  PUT("return", site);
  strand = top->next;
  top--;
}
static void sync(uint32_t site) {
  if (!top->open) return;
  PUT("sync", site);
  strand = top->join;
  top->open = false;
}

/* A view-read race depends on the peers of the strands with a put or get. To them all strands of a child without any are alike: each of
   them is a peer of all, or of none. So such a child is told as one strand without requests.
   Several of them in a row, with no request between, are peers of the same strands, so one stands for all; and where a sync follows, none
   is needed. An update is always granted and no get sees it, so it is left out. */
static void put_idle(struct told *scope) {
  if (!scope->idle) return;
  scope->idle = false;
  uint32_t child = spawn(scope, scope->idle_site);
  strand = child;
  PUT("return", scope->idle_site);
  strand = child + 1;
}
/* The scopes from the first that is not told yet on are told, outermost first: a request comes inside of them. Of those that are told
   already, only the innermost may have had an idle child since. */
static struct told *first_untold;
static void tell_scopes(void) {
  put_idle(first_untold - 1);
  for (struct told *scope = first_untold; scope <= top; scope++) {
    if (scope->child) {
      uint32_t child = spawn(scope - 1, scope->site);
      scope->next = child + 1;
      strand = child;
    }
    put_idle(scope);
  }
  first_untold = top + 1;
}
static bool is_told(const struct told *scope) { return scope < first_untold; }

/* ---- pairs ---- */

/* Of a way: the first of those behind it and the next one beside it that are told, and the first cell of an access that stands there, of which
   each names the next. (A cell is told by its number and 1.) */
static struct told_way { uint32_t inner, beside, cell; bool is_told; } *ways;
static uint32_t *next_cell;

/* Whether the trace tells the pair among those of strands that part at a spawn, or among the others. */
static bool is_told_pair(uint32_t cell, bool parts) { return (pairs.list[cell].part != 0) == parts; }
static uint32_t way_to(uint32_t cell, bool second) { return second ? pairs.list[cell].right : pairs.list[cell].left; }

static void tell_ways(bool parts, bool second) {
  for (uint32_t cell = trace->end_cell; cell-- > trace->first_cell;) {
    if (!is_told_pair(cell, parts)) continue;
    uint32_t way = way_to(cell, second);
    next_cell[cell - trace->first_cell] = ways[way].cell;
    ways[way].cell = cell - trace->first_cell + 1;
    for (; way && !ways[way].is_told; way = pairs.ways[way].outer) {
      ways[way].is_told = true;
      ways[way].beside = ways[pairs.ways[way].outer].inner;
      ways[pairs.ways[way].outer].inner = way;
    }
  }
}
static void forget_ways(bool parts, bool second) {
  for (uint32_t cell = trace->first_cell; cell < trace->end_cell; cell++) {
    if (!is_told_pair(cell, parts)) continue;
    uint32_t way = way_to(cell, second);
    for (ways[way].cell = 0; way && ways[way].is_told; way = pairs.ways[way].outer) ways[way] = (struct told_way){0};
  }
  ways[0] = (struct told_way){0};
}

static void put_cells(uint32_t way, bool second) {
  if (ways[way].cell) make_beginnings();
  for (uint32_t cell = ways[way].cell; cell && !is_full(); cell = next_cell[cell - 1]) {
    const struct pair *pair = &pairs.list[trace->first_cell + cell - 1];
    uint32_t access = second ? pair->second : pair->first;
    put_access(pair_word((enum access)(access & 3)), cell - 1, ending(access >> 2));
  }
}
static void enter_way(uint32_t way, bool second) {
  uint32_t site = pairs.ways[way].site, child = spawn(top, site);
  push((struct told){.child = true, .next = child + 1, .site = site});
  strand = child;
  put_cells(way, second);
}
static void leave_way(uint32_t way) {
  sync(0);
  end_child(pairs.ways[way].site);
}
/* The ways to the first accesses of pairs, or to the second ones: each a child of the one around it, in which its accesses stand. */
static void put_ways(bool parts, bool second) {
  tell_ways(parts, second);
  put_cells(0, second);
  for (uint32_t way = 0, next = ways[0].inner; next && !is_full();) {
    enter_way(way = next, second);
    for (next = ways[way].inner; !next && way; way = pairs.ways[way].outer) {
      leave_way(way);
      next = ways[way].beside;
    }
  }
  forget_ways(parts, second);
}
/* Each pair is a cell of two accesses; nothing else is told of it. So all pairs whose strands part at a spawn stand in one block, the first
   accesses in children and the second ones behind them; and all others with a sync between. */
static void put_pairs(void) {
  if (!ways) {
    ways = reserve(sizeof *ways * ((size_t)pairs.way_count + 1));
    next_cell = reserve(sizeof *next_cell * ((size_t)pairs.count + 1));
  }
  for (int parts = 0; parts < 2; parts++) {
    put_ways(parts, false);
    if (!parts) sync(0);
    put_ways(parts, true);
    sync(0);
  }
}

/* ---- reducers ---- */

static void put_reducer(const struct log_item *item) {
  if (item->kind == REDUCER_GET) text_word(text, "get "); else text_word(text, "put ");
  text_number(text, strand);
  text_word(text, " r");
  text_number(text, item->of - trace->first_reducer);
  if (item->kind != REDUCER_GET) text_word(text, " 0");
  mark(item->site);
}
static bool has_reducers(void) { return trace->first_reducer < trace->end_reducer; }
static bool is_told_reducer(const struct log_item *item) {
  return item->kind != REDUCER_UPDATE && item->of >= trace->first_reducer && item->of < trace->end_reducer;
}

/* ---- the requests of a trace ---- */

bool control_requests(struct trace *of) {
  begin(of);
  if (trace->first_cell < trace->end_cell) put_pairs();
  first_untold = scopes + 1;
  if (!has_reducers()) PUT("return", 0);
  for (uint32_t at = 0; has_reducers() && !is_full();) {
    struct log_item item;
    at = log_read(at, &item);
    switch (item.event) {
    case LOG_ENTER: push((struct told){.site = item.site}); break;
    case LOG_SPAWN: push((struct told){.child = true, .site = item.site}); break;
    case LOG_LEAVE:
      if (is_told(top)) { first_untold = top; leave(item.site); } else top--;
      break;
    case LOG_CHILD_END:
      if (is_told(top)) {
        first_untold = top;
        end_child(item.site);
      } else {
        uint32_t site = top->site;
        (--top)->idle = true;
        top->idle_site = site;
      }
      break;
    case LOG_SYNC:
      top->idle = false;
      if (is_told(top)) sync(item.site);
      break;
    case LOG_END: PUT("return", item.site); return !is_full();
    case LOG_REDUCER:
      if (!is_told_reducer(&item)) break;
      tell_scopes();
      put_reducer(&item);
      break;
    case LOG_ACCESS: break;
    }
  }
  return !is_full();
}

/* ---- a raw recording ---- */

/* A location is two cells where atomic loads occur. Cell a, number 2 n - 2, has its plain reads, its writes, and its atomic stores (as bumps);
   cell b, number 2 n - 1, its writes, and its atomic loads as reads. By the access table two requests conflict on a or b exactly where the
   two accesses conflict. */
static char cell_word(enum access kind, bool second) {
  static const char words[2][4] = {{[ACCESS_READ] = 'r', [ACCESS_BUMP] = 'b', [ACCESS_WRITE] = 'w'}, {[ACCESS_LOAD] = 'r', [ACCESS_WRITE] = 'w'}};
  return words[second][kind];
}
static void put_raw(const struct log_item *item) {
  make_beginnings();
  for (uint32_t second = 0; second < (raw_has_loads() ? 2 : 1); second++) {
    char request = cell_word((enum access)item->kind, second);
    if (request) put_access(request, raw_has_loads() ? 2 * (item->of - 1) + second : item->of - 1, ending(item->site));
  }
}

bool control_raw(struct trace *of) {
  static const char *const words[] = {[REDUCER_MADE] = "put ", [REDUCER_UPDATE] = "update ", [REDUCER_PUT] = "put ", [REDUCER_GET] = "get "};
  begin(of);
  for (uint32_t at = 0;;) {
    struct log_item item;
    at = log_read(at, &item);
    switch (item.event) {
    case LOG_ENTER:
      push((struct told){.called = true});
      PUT("call", item.site);
      break;
    case LOG_LEAVE: leave(item.site); break;
    case LOG_SPAWN: {
      uint32_t child = spawn(top, item.site);
      push((struct told){.child = true, .next = child + 1});
      strand = child;
      break;
    }
    case LOG_CHILD_END: end_child(item.site); break;
    case LOG_SYNC: sync(item.site); break;
    case LOG_END: PUT("return", item.site); return !is_full();
    case LOG_REDUCER:
      text_line(text, words[item.kind]);
      text_number(text, strand);
      text_word(text, " r");
      text_number(text, item.of);
      if (item.kind != REDUCER_GET) text_word(text, " 0");
      mark(item.site);
      break;
    case LOG_ACCESS: put_raw(&item); break;
    }
    if (is_full()) return false;
  }
}
