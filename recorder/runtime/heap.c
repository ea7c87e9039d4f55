/* malloc, free, their kin, and operator new and delete. heap.h states the invariants. */
#define _GNU_SOURCE
#include "heap.h"
#include "histories.h"
#include "places.h"
#include <errno.h>
#include <malloc.h>
#include <stdlib.h>
#include <string.h>

#define GONE SIZE_MAX                          /* bytes of a slot whose block was freed; it stays for the search */
#define QUARANTINE_BLOCKS (1u << 16)
#define QUARANTINE_BYTES ((size_t)16 << 20)
#define SORTING_BUDGET 200000000u

extern void *__libc_malloc(size_t), *__libc_calloc(size_t, size_t), *__libc_memalign(size_t, size_t);
extern void __libc_free(void *);

static struct block *blocks;
static size_t mask = (1u << 12) - 1, used;     /* slots that are taken, those of blocks that are gone included */
static struct block *quarantine;
static size_t quarantine_in, quarantine_out, quarantine_bytes;
static struct block *sorted; static uintptr_t last_found; static size_t sorted_count; static uint64_t changes, sorted_at = UINT64_MAX, sorting;

void *plain_malloc(size_t bytes) { return __libc_malloc(bytes); }
void plain_free(void *at) { __libc_free(at); }

void heap_begin(void) {
  blocks = reserve(sizeof *blocks * (mask + 1));
  quarantine = reserve(sizeof *quarantine * QUARANTINE_BLOCKS);
}

static struct block *slot_of(uintptr_t base) {
  size_t at = (base * 0x9E3779B97F4A7C15u) >> 20 & mask;
  while (blocks[at].base && blocks[at].base != base) at = (at + 1) & mask;
  return &blocks[at];
}
static struct block *known(const void *base) {
  if (!blocks || !base) return NULL;
  struct block *slot = slot_of((uintptr_t)base);
  return slot->base && slot->bytes != GONE ? slot : NULL;
}
static void more_slots(void) {
  struct block *old = blocks;
  size_t old_mask = mask, live = 0;
  for (size_t i = 0; i <= old_mask; i++) live += old[i].base && old[i].bytes != GONE;
  if (live * 4 > mask) mask = mask * 4 + 3;                        /* else the slots of freed blocks alone are in the way */
  blocks = reserve(sizeof *blocks * (mask + 1));
  used = live;
  for (size_t i = 0; i <= old_mask; i++) if (old[i].base && old[i].bytes != GONE) *slot_of(old[i].base) = old[i];
  unreserve(old, sizeof *old * (old_mask + 1));
}

static void *made(void *at, size_t bytes, uintptr_t place) {
  if (!at) return NULL;
  start_recording();
  if (!recording) return at;
  if (used * 2 > mask) more_slots();
  struct block *slot = slot_of((uintptr_t)at);
  if (!slot->base) used++;
  *slot = (struct block){(uintptr_t)at, bytes, place_in_source(place)};
  changes++;
  return at;
}
static void release(const struct block *block) {
  end_lives(block->base, block->base + block->bytes);
  __libc_free((void *)block->base);
}
static void freed(void *at, uintptr_t place) {
  struct block *slot = recording ? known(at) : NULL;
  if (!slot) { __libc_free(at); return; }
  struct block block = *slot;
  histories_tell_reads();
  if (histories.looking) record_access(block.base, block.bytes, ACCESS_WRITE, place);
  slot->bytes = GONE;
  changes++;
  if (!histories.looking) { release(&block); return; }
  if (block.bytes > QUARANTINE_BYTES) { release(&block); return; }
  quarantine[quarantine_in++ % QUARANTINE_BLOCKS] = block;
  quarantine_bytes += block.bytes;
  while (quarantine_bytes > QUARANTINE_BYTES || quarantine_in - quarantine_out == QUARANTINE_BLOCKS) {
    struct block oldest = quarantine[quarantine_out++ % QUARANTINE_BLOCKS];
    quarantine_bytes -= oldest.bytes;
    release(&oldest);
  }
}

void heap_made(void *block, size_t bytes, uintptr_t place) { made(block, bytes, place); }
void heap_freed(void *block, uintptr_t place) { freed(block, place); }
size_t heap_bytes(const void *block) {
  const struct block *slot = known(block);
  return slot ? slot->bytes : 0;
}

/* ---- the C library's ---- */

void *malloc(size_t bytes) { return made(__libc_malloc(bytes), bytes, PLACE); }
void *calloc(size_t count, size_t bytes) { return made(__libc_calloc(count, bytes), count * bytes, PLACE); }
void *memalign(size_t alignment, size_t bytes) { return made(__libc_memalign(alignment, bytes), bytes, PLACE); }
void *aligned_alloc(size_t alignment, size_t bytes) { return made(__libc_memalign(alignment, bytes), bytes, PLACE); }
void *valloc(size_t bytes) { return made(__libc_memalign(4096, bytes), bytes, PLACE); }
void *pvalloc(size_t bytes) { bytes = (bytes + 4095) & ~(size_t)4095; return made(__libc_memalign(4096, bytes), bytes, PLACE); }
int posix_memalign(void **at, size_t alignment, size_t bytes) {
  if (alignment % sizeof(void *) || alignment & (alignment - 1) || !alignment) return EINVAL;
  int kept = errno;
  void *block = made(__libc_memalign(alignment, bytes), bytes, PLACE);
  errno = kept;
  if (!block) return ENOMEM;
  *at = block;
  record_access((uintptr_t)at, sizeof *at, ACCESS_WRITE, PLACE);
  return 0;
}
void free(void *at) { int kept = errno; freed(at, PLACE); errno = kept; }
void cfree(void *at);
void cfree(void *at) { freed(at, PLACE); }

static void *moved(void *at, size_t bytes, uintptr_t place) {
  if (!at) return made(__libc_malloc(bytes), bytes, place);
  if (!bytes) { freed(at, place); return NULL; }
  const struct block *old = known(at);
  size_t kept = old ? old->bytes : malloc_usable_size(at);
  void *to = made(__libc_malloc(bytes), bytes, place);
  if (!to) return NULL;
  if (kept > bytes) kept = bytes;
  if (old && kept) {
    record_access((uintptr_t)at, kept, ACCESS_READ, place);
    record_access((uintptr_t)to, kept, ACCESS_WRITE, place);
  }
  memcpy(to, at, kept);
  freed(at, place);
  return to;
}
void *realloc(void *at, size_t bytes) { return moved(at, bytes, PLACE); }
void *reallocarray(void *at, size_t count, size_t bytes) {
  size_t all;
  if (__builtin_mul_overflow(count, bytes, &all)) { errno = ENOMEM; return NULL; }
  return moved(at, all, PLACE);
}

/* ---- C++'s, by their names: plain, nothrow, aligned; arrays ---- */

/* Where there is no memory, libstdc++'s own operator new calls the handler, and throws. */
extern void cilkcheck_no_memory(size_t bytes) __asm__("_ZSt17__throw_bad_allocv") __attribute__((weak));
static void *new_block(size_t alignment, size_t bytes, bool throws, uintptr_t place) {
  if (!bytes) bytes = 1;
  void *at = made(alignment ? __libc_memalign(alignment, bytes) : __libc_malloc(bytes), bytes, place);
  if (at || !throws) return at;
  if (cilkcheck_no_memory) cilkcheck_no_memory(bytes);
  abort();
}
#define NEW(name, parameters, alignment, throws) \
  void *name parameters; \
  void *name parameters { (void)unused; return new_block(alignment, bytes, throws, PLACE); }
#define DELETE(name, parameters) \
  void name parameters; \
  void name parameters { (void)unused; (void)unused2; freed(at, PLACE); }
#define NEW_FORMS(new) \
  void *new##m(size_t bytes); \
  void *new##m(size_t bytes) { return new_block(0, bytes, true, PLACE); } \
  NEW(new##mRKSt9nothrow_t, (size_t bytes, const void *unused), 0, false) \
  void *new##mSt11align_val_t(size_t bytes, size_t alignment); \
  void *new##mSt11align_val_t(size_t bytes, size_t alignment) { return new_block(alignment, bytes, true, PLACE); } \
  NEW(new##mSt11align_val_tRKSt9nothrow_t, (size_t bytes, size_t alignment, const void *unused), alignment, false)
#define DELETE_FORMS(delete) \
  void delete(void *at); \
  void delete(void *at) { freed(at, PLACE); } \
  void delete##m(void *at, size_t bytes); \
  void delete##m(void *at, size_t bytes) { (void)bytes; freed(at, PLACE); } \
  void delete##RKSt9nothrow_t(void *at, const void *unused); \
  void delete##RKSt9nothrow_t(void *at, const void *unused) { (void)unused; freed(at, PLACE); } \
  void delete##St11align_val_t(void *at, size_t unused); \
  void delete##St11align_val_t(void *at, size_t unused) { (void)unused; freed(at, PLACE); } \
  DELETE(delete##mSt11align_val_t, (void *at, size_t unused, size_t unused2)) \
  DELETE(delete##St11align_val_tRKSt9nothrow_t, (void *at, size_t unused, const void *unused2))
NEW_FORMS(_Znw)
NEW_FORMS(_Zna)
DELETE_FORMS(_ZdlPv)
DELETE_FORMS(_ZdaPv)

/* ---- where a location lies ---- */

static int by_base(const void *a, const void *b) {
  const struct block *x = a, *y = b;
  return (x->base > y->base) - (x->base < y->base);
}
/* Sorts the blocks that there are. False where that was done so often that it would take too long. */
static bool sort_blocks(void) {
  if (sorted_at == changes) return true;
  sorting += mask + 1;
  if (sorting > SORTING_BUDGET) return false;
  if (sorted) unreserve(sorted, sizeof *sorted * (sorted_count + 1));
  sorted_count = 0;
  for (size_t i = 0; i <= mask; i++) sorted_count += blocks[i].base && blocks[i].bytes != GONE;
  sorted = reserve(sizeof *sorted * (sorted_count + 1));
  size_t count = 0;
  for (size_t i = 0; i <= mask; i++) if (blocks[i].base && blocks[i].bytes != GONE) sorted[count++] = blocks[i];
  bool kept = recording;
  recording = false;                                               /* qsort takes memory of its own */
  if (count) qsort(sorted, count, sizeof *sorted, by_base);
  recording = kept;
  sorted_at = changes;
  return true;
}
bool heap_block_of(uintptr_t address, struct block *block) {
  if (!blocks) return false;
  const struct block *last = known((void *)last_found);
  if (!last || address - last->base >= last->bytes) {
    if (!sort_blocks()) return false;
    size_t low = 0, high = sorted_count;
    while (low < high) { size_t middle = (low + high) / 2; if (sorted[middle].base <= address) low = middle + 1; else high = middle; }
    if (!low || address - sorted[low - 1].base >= sorted[low - 1].bytes) return false;
    last = &sorted[low - 1];
    last_found = last->base;
  }
  *block = *last;
  return true;
}
