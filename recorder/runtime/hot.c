/* What runs at each access, call, spawn and sync, compiled as one, so that what is small is not called. */
#define _GNU_SOURCE
#include "log.c"
#include "states.c"
#include "pairs.c"
#include "histories.c"
#include "scopes.c"
#include "stack.c"
#include "accesses.c"
#include "abi.c"
