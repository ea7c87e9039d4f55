/* What the wrappers of libc share (libc_*.c). The compiler pass renames a call of NAME in the user's objects to TELLS(NAME): it tells
   what the function reads and writes of the program's memory, and calls the function. names/redirected lists all of them.

   - Effects are exact: no byte more (a clean program would be blamed), none less (a race would be missed).
   - Reads are told before the call, since it may overwrite what says how far they go; writes are told before or behind it.
   - A function that keeps a state between its calls has a location for it, STATE(NAME), which is named in reports.
   - PLACE is the call, until the program is called back.
   - What the function itself allocates with malloc is a block of libc; where the program gets it, heap_made makes it the program's.
   - The definitions are weak: a program that defines a function of that name itself has its own, which is compiled and seen. */
#ifndef CILKCHECK_LIBC_H
#define CILKCHECK_LIBC_H
#include "recorder.h"

#define TELLS(name) __cilkcheck_libc_##name
#define WRAPPER(result, name, ...)   \
  result TELLS(name)(__VA_ARGS__);   \
  __attribute__((weak)) result TELLS(name)(__VA_ARGS__)

static inline void tell(const volatile void *at, size_t bytes, enum access kind, uintptr_t place) {
  if (!bytes) return;
  record_access((uintptr_t)at, bytes, kind, place);
}
#define READ(at, bytes) tell(at, bytes, ACCESS_READ, PLACE)
#define WRITE(at, bytes) tell(at, bytes, ACCESS_WRITE, PLACE)
#define READ_STRING(string) READ(string, strlen(string) + 1)
/* Where a pointer for a result may be null. */
#define WRITE_IF(at) ((at) ? WRITE(at, sizeof *(at)) : (void)0)

/* Hidden states of libc: one location each. */
#define STATE_NAME(name) __cilkcheck_state_of_##name
#define DEFINE_STATE(name) uint32_t STATE_NAME(name)
#define READ_STATE(name) READ(&STATE_NAME(name), sizeof(uint32_t))
#define WRITE_STATE(name) WRITE(&STATE_NAME(name), sizeof(uint32_t))
#define HIDDEN_STATES(use) use(strtok) use(rand) use(drand48) use(locale) use(environment) use(working_folder) use(multibyte)
#define STATE_ROW(name) {&STATE_NAME(name), #name},
#define STATE_DECLARED(name) extern uint32_t STATE_NAME(name);
HIDDEN_STATES(STATE_DECLARED)

/* A stream is locked by each function that works on it, so two of them do not race; one and fclose do. So each reads the
   stream's location, and fclose writes it. What is printed first is not determined, but no race of memory. */
#define USE_STREAM(stream) READ(stream, sizeof(uint32_t))

/* How far a string is read that ends at its NUL or with `most` characters (libc_memory.c). */
size_t string_read(const char *string, size_t most);
size_t wide_string_read(const void *string, size_t most);
/* The accesses of a printf by its format and arguments, and the writes of a scanf that assigned `assigned` items (libc_formats.c). */
void tell_printf(const char *format, __builtin_va_list arguments, uintptr_t place);
void tell_scanf(const char *format, __builtin_va_list arguments, int assigned, uintptr_t place);

#endif
