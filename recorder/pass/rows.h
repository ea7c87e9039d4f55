/* The rows that the compiler pass puts into a recorded object, and how the runtime reads them. C11 and C++.

   A reference is a signed difference, TARGET - ADDRESS OF THE FIELD, so that a position-independent program has nothing
   to relocate; 0: none. Each kind of row has its section, from `__start_NAME` to `__stop_NAME` (the linker). */
#ifndef CILKCHECK_ROWS_H
#define CILKCHECK_ROWS_H
#include <stdint.h>

#ifdef __cplusplus
extern "C" {
#endif

enum cilkcheck_kind {
  CILKCHECK_READ = 0,
  CILKCHECK_ATOMIC_READ = 1,  /* a load, or a compare-exchange that fails */
  CILKCHECK_ATOMIC_WRITE = 2, /* a store, or a read-modify-write that succeeds */
  CILKCHECK_WRITE = 3
};

/* A flag: in a header of the system's, in recorder/include, or of no known file. What a user reads is the caller's. */
enum { CILKCHECK_SYSTEM = 1 };

/* Section cilkcheck_sites: a place in the source, of an access, a call or a mark. */
struct cilkcheck_site {
  int32_t file;     /* text: the file as the compiler was given it */
  int32_t function; /* text: unqualified name */
  int32_t name;     /* text: what is accessed (`x`, `x[]`, `p->re`, `*p`), or the callee's name; 0: not known */
  int32_t code;     /* text: the line without its indentation, tabs as blanks; 0: the file could not be read */
  uint32_t line;    /* 0: not known */
  uint32_t column;  /* from 1; 0: not known */
  uint32_t flags;   /* CILKCHECK_SYSTEM */
  uint32_t spare;   /* 0 */
};

/* A local that lies in its function's struct of locals. */
struct cilkcheck_local {
  int32_t name;    /* text; 0: a temporary */
  uint32_t offset; /* from the `locals` that __cilkcheck_enter is given */
  uint32_t bytes;
  uint32_t line; /* of its declaration; 0: not known */
};

/* Section cilkcheck_frames: one row for each hooked function. */
struct cilkcheck_frame {
  int32_t function; /* text: unqualified name */
  int32_t file;     /* text */
  int32_t locals;   /* local_count rows of struct cilkcheck_local, by ascending offset; 0: none */
  uint32_t line;    /* of the function; 0: not known */
  uint32_t local_count;
  uint32_t flags; /* CILKCHECK_SYSTEM */
};

/* Section cilkcheck_objects: a global or static object that is no constant and not thread-local. */
struct cilkcheck_object {
  int64_t address; /* reference to the object; never 0 */
  uint64_t bytes;
  int32_t name;   /* text: name in the source */
  int32_t file;   /* text; 0: not known */
  uint32_t line;  /* 0: not known */
  uint32_t flags; /* CILKCHECK_SYSTEM */
};

/* Section cilkcheck_notes: what is not seen. One note may come from several objects. */
struct cilkcheck_note {
  int32_t file;  /* text */
  int32_t what;  /* text: `inline assembly`, `intrinsic llvm.x86.xsave`, .. */
  uint32_t line; /* 0: not known */
  uint32_t flags;
};

/* Where a reference leads; NULL for none. */
static inline const void *cilkcheck_target(const int32_t *reference) {
  return *reference ? (const char *)reference + *reference : (const char *)0;
}
static inline const char *cilkcheck_text(const int32_t *reference) { return (const char *)cilkcheck_target(reference); }
static inline const void *cilkcheck_object_address(const struct cilkcheck_object *object) {
  return (const char *)&object->address + object->address;
}

/* A recorded object refers to this symbol, which the runtime defines. Another layout of the rows has another number. */
#define CILKCHECK_VERSION __cilkcheck_version_1
#define CILKCHECK_VERSION_NAME "__cilkcheck_version_1"

#ifdef __cplusplus
}
#endif
#endif
