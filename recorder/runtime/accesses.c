/* The accesses that the pass tells. abi.h says what each hook means. */
#include "abi.h"
#include "histories.h"

#define HOOK(name, bytes, kind) \
  void name(const void *at, site_row site) { access_memory((uintptr_t)at, bytes, kind, (uintptr_t)site); }
#define SIZE(bytes) \
  HOOK(__cilkcheck_read##bytes, bytes, ACCESS_READ) \
  HOOK(__cilkcheck_write##bytes, bytes, ACCESS_WRITE)
SIZE(1) SIZE(2) SIZE(4) SIZE(8) SIZE(16)

void __cilkcheck_access(const void *at, size_t bytes, int kind, site_row site) {
  record_access((uintptr_t)at, bytes, (enum access)kind, (uintptr_t)site);
}
