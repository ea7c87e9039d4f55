/* The files of a recording.

   PROGRAM.trace, or where one trace does not hold all PROGRAM.1.trace, PROGRAM.2.trace, ..: each has both accesses of some pairs, or
   all requests of some reducers, or both, and the control that tells their strands apart. (Law `other_locations`: the verdicts of a location depend
   on its own accesses and on control. Law `near_pairs`: the cell of a pair may stand in any trace.)

   Invariant: until the last one is written and renamed there is no file of the recording's name: old ones are removed at the beginning,
   new ones have the ending `.part`. What is cut off leaves no trace that could be taken for a whole one. */
#ifndef CILKCHECK_TRACES_H
#define CILKCHECK_TRACES_H
#include "recorder.h"

void traces_begin(void);
void traces_write(void);
/* Removes what was written so far. */
void traces_discard(void);

#endif
