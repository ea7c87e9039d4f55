/* The requests of one trace: its pairs, each a cell of two accesses in children of the root's (pairs.h); and behind them the operations of its
   reducers in the order of the run, with the spawns, calls, syncs and returns that their strands need. What comes first is synced with, so
   it is a peer of nothing that follows.

   Strands are numbered anew, by the rule of the traces: the first spawn of a block begins child, next and join, later ones child and
   next. A function is told as a call only where its caller has children outstanding, so that its sync does not wait for them. */
#ifndef CILKCHECK_CONTROL_H
#define CILKCHECK_CONTROL_H
#include "text.h"

struct trace {
  struct text *text;
  uint32_t first_cell, end_cell;             /* the pairs of the trace; their cells are numbered from 0 on */
  uint32_t first_reducer, end_reducer;       /* the reducers of the trace */
  uint64_t most_requests, most_bytes;
  uint64_t requests;                         /* that were written */
  uint64_t *sites;                           /* a bit for each site that occurs */
};
/* Writes the requests of the pairs and of the reducers. False where there are more than the trace holds. */
bool control_requests(struct trace *trace);
/* Writes each event of a raw recording. */
bool control_raw(struct trace *trace);

#endif
