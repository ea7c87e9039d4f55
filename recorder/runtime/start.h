/* Options of a recorded run, and the order of its beginning and end.

   Invariants: `recording` is true from start_recording to the first line of the end (or a refusal). All options are read once, before
   the program's own constructors run, so a program that changes its environment or its folder changes nothing. */
#ifndef CILKCHECK_START_H
#define CILKCHECK_START_H
#include "recorder.h"

/* The environment of a recorded run. */
struct options {
  bool raw;                /* CILKCHECK_RAW=1: each byte is a location, nothing is left out (small runs, for tests) */
  bool epochs;             /* CILKCHECK_EPOCHS=no: the judge alone decides that nothing is outstanding */
  const char *members;     /* CILKCHECK_MEMBERS=FILE: members.h, for tests */
  uint64_t limit;          /* CILKCHECK_LIMIT=N: requests a trace, at most and by default 1,000,000 */
  const char *trace;       /* CILKCHECK_TRACE=PATH: the traces' name; by default the program's, in the folder it was started in */
};
extern struct options options;

/* Says `cilkcheck: ` and the text on standard error. */
void say(const char *format, ...) __attribute__((format(printf, 1, 2)));
/* The notes of note_unseen, one after another, each ending in a line feed. */
const char *unseen_notes(void);
/* The words of the command, as text of one line. */
const char *command_words(void);

#endif
