/* The judge's memory: libc's own, which is no block of the program, as plain_malloc gives it. Blocks of libc are aligned to 16 bytes, and
   the judge asks for no more. */
#include <stdbool.h>
#include <stddef.h>

extern void *__libc_malloc(size_t), *__libc_realloc(void *, size_t);
extern void __libc_free(void *);

struct tried { bool ok; void *block; };
struct tried rattle_alloc(size_t bytes, size_t alignment), rattle_realloc(void *block, size_t kept, size_t bytes, size_t alignment);
void rattle_dealloc(void *block);

/* Where there is no memory the pointer is not null, since the judge moves it like any other. */
static char nothing[16];
static struct tried tried(void *block) { return (struct tried){block != NULL, block ? block : nothing}; }

/* A block of no bytes has one of its alignment, so that it has an address of its own. */
struct tried rattle_alloc(size_t bytes, size_t alignment) { return tried(__libc_malloc(bytes ? bytes : alignment)); }
struct tried rattle_realloc(void *block, size_t kept, size_t bytes, size_t alignment) {
  (void)kept;
  return tried(__libc_realloc(block, bytes ? bytes : alignment));
}
void rattle_dealloc(void *block) { __libc_free(block); }
