/* The full recording. raw.h states what it is. */
#include "raw.h"
#include "log.h"

#define PAGE_SHIFT_RAW 22
#define PAGES_RAW (1u << (47 - PAGE_SHIFT_RAW))
#define MOST_LOCATIONS 1000000u

static uint32_t **pages;                       /* for each 4 MiB of addresses, a number for each byte */
static uintptr_t *addresses;                   /* of each location */
static uint32_t locations;
static bool loads;

void raw_begin(void) {
  pages = reserve(sizeof *pages * PAGES_RAW);
  addresses = reserve(sizeof *addresses * (MOST_LOCATIONS + 1));
}
uint32_t raw_locations(void) { return locations; }
uintptr_t raw_address(uint32_t location) { return addresses[location]; }
bool raw_has_loads(void) { return loads; }

static uint32_t *byte_at(uintptr_t address) {
  uint32_t **page = &pages[address >> PAGE_SHIFT_RAW];
  if (address >> PAGE_SHIFT_RAW >= PAGES_RAW) refuse(0, "an access at an address above 2^47");
  if (!*page) *page = reserve(sizeof **page << PAGE_SHIFT_RAW);
  return *page + (address & ((1u << PAGE_SHIFT_RAW) - 1));
}

void raw_access(uintptr_t address, size_t bytes, enum access kind, uint32_t site) {
  if (kind == ACCESS_LOAD) loads = true;
  for (uintptr_t at = address; at < address + bytes; at++) {
    uint32_t *byte = byte_at(at);
    if (*byte == RAW_HIDDEN) continue;
    if (!*byte) {
      if (locations == MOST_LOCATIONS) refuse(0, "CILKCHECK_RAW is for small runs: more than %u bytes", MOST_LOCATIONS);
      *byte = ++locations;
      addresses[locations] = at;
    }
    log_access(kind, *byte, site);
  }
}
void raw_end(uintptr_t from, uintptr_t to) {
  while (from < to) {
    if (from >> PAGE_SHIFT_RAW >= PAGES_RAW) return;
    if (!pages[from >> PAGE_SHIFT_RAW]) { from = ((from >> PAGE_SHIFT_RAW) + 1) << PAGE_SHIFT_RAW; continue; }
    *byte_at(from++) = 0;
  }
}
void raw_hide(uintptr_t from, uintptr_t to) {
  for (; from < to; from++) *byte_at(from) = RAW_HIDDEN;
}
