/* The events of a run, in the order in which they happened, as bytes.

   An event is a byte (its kind in the low four bits) and numbers: seven bits a byte, the low ones first, the top bit where more follow.

   | event | numbers |
   |---|---|
   | LOG_ENTER, LOG_LEAVE, LOG_SPAWN, LOG_CHILD_END, LOG_SYNC | site |
   | LOG_REDUCER | (the operation in the high four bits) reducer, site |
   | LOG_ACCESS | (the kind in the high four bits) location, site; in a raw recording alone |
   | LOG_END | site; the end of the root's last strand |

   Invariants: LOG_SPAWN and LOG_CHILD_END nest, LOG_ENTER and LOG_LEAVE nest between them. What was told last may be taken back
   (log_cut). */
#ifndef CILKCHECK_LOG_H
#define CILKCHECK_LOG_H
#include "recorder.h"

enum log_event { LOG_ENTER, LOG_LEAVE, LOG_SPAWN, LOG_CHILD_END, LOG_SYNC, LOG_REDUCER, LOG_ACCESS, LOG_END };

void log_begin(void);
void log_event(enum log_event event, uint32_t site);
/* A place between two events: the bytes before it. */
struct log_place log_here(void);
/* Whether an operation of a reducer, or an access, was told behind that place. */
bool log_has_requests(struct log_place place);
void log_cut(struct log_place place);
void log_reducer(enum reducer_operation operation, uint32_t reducer, uint32_t site);
void log_access(enum access kind, uint32_t location, uint32_t site);

/* One event, read. `kind` and `of` are the operation and reducer, or the kind and location. */
struct log_item { enum log_event event; uint32_t site, kind, of; };
/* Reads the event at `at`, and gives where the next one stands. */
uint32_t log_read(uint32_t at, struct log_item *item);

#endif
