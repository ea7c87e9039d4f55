/* The notes of a trace, comment lines at its end: `#run TEXT`, `#at K PLACE`, `#of CELL TEXT`. */
#ifndef CILKCHECK_NOTES_H
#define CILKCHECK_NOTES_H
#include "control.h"

/* The notes of this trace, `title` as the first `#run`; at most as many bytes as the trace has room for. */
void notes_write(const struct trace *trace, const char *title);

#endif
