/* The functions of libstdc++ behind std::list and the unordered containers. See libc.h. Lists: functions of our own in the place of the
   library's, told field by field. std::vector, std::deque and the algorithms are templates, which are compiled and seen. */
#include "libc.h"

/* ---- lists: the layout of std::__detail::_List_node_base ---- */

struct link { struct link *next, *before; };

#define GET(link, field) (tell(&(link)->field, sizeof (link)->field, ACCESS_READ, place), (link)->field)
#define SET(link, field, value) (tell(&(link)->field, sizeof (link)->field, ACCESS_WRITE, place), (link)->field = (value))

WRAPPER(void, _ZNSt8__detail15_List_node_base7_M_hookEPS0_, struct link *at, struct link *position) {
  uintptr_t place = PLACE;
  struct link *before = GET(position, before);
  SET(at, next, position);
  SET(at, before, before);
  SET(before, next, at);
  SET(position, before, at);
}
WRAPPER(void, _ZNSt8__detail15_List_node_base9_M_unhookEv, struct link *at) {
  uintptr_t place = PLACE;
  struct link *next = GET(at, next), *before = GET(at, before);
  SET(before, next, next);
  SET(next, before, before);
}
/* [first, last) goes from where it is to before `at`. */
WRAPPER(void, _ZNSt8__detail15_List_node_base11_M_transferEPS0_S1_, struct link *at, struct link *first, struct link *last) {
  uintptr_t place = PLACE;
  if (at == last) return;
  struct link *end = GET(last, before), *gap = GET(first, before), *front = GET(at, before);
  SET(end, next, at);
  SET(gap, next, last);
  SET(front, next, first);
  SET(at, before, end);
  SET(last, before, gap);
  SET(first, before, front);
}
WRAPPER(void, _ZNSt8__detail15_List_node_base10_M_reverseEv, struct link *head) {
  uintptr_t place = PLACE;
  struct link *at = head;
  do {
    struct link *next = GET(at, next);
    SET(at, next, GET(at, before));
    SET(at, before, next);
    at = next;
  } while (at != head);
}
/* `head` takes over what hung on `old`. */
static void take_over(struct link *head, struct link *old, struct link *next, struct link *before, uintptr_t place) {
  bool is_empty = next == old;
  SET(head, next, is_empty ? head : next);
  SET(head, before, is_empty ? head : before);
  if (is_empty) return;
  SET(next, before, head);
  SET(before, next, head);
}
WRAPPER(void, _ZNSt8__detail15_List_node_base4swapERS0_S1_, struct link *a, struct link *b) {
  uintptr_t place = PLACE;
  if (a == b) return;
  struct link *next_a = GET(a, next), *next_b = GET(b, next);
  if (next_a == a && next_b == b) return;
  struct link *before_a = GET(a, before), *before_b = GET(b, before);
  take_over(a, b, next_b, before_b, place);
  take_over(b, a, next_a, before_a, place);
}

/* ---- unordered containers: how many buckets; the layout of std::__detail::_Prime_rehash_policy ---- */

struct policy { float most_load; size_t next_resize; };
struct rehash { bool needed; size_t buckets; };
extern size_t _ZNKSt8__detail20_Prime_rehash_policy11_M_next_bktEm(struct policy *policy, size_t wanted) __attribute__((weak));
extern struct rehash _ZNKSt8__detail20_Prime_rehash_policy14_M_need_rehashEmmm(struct policy *policy, size_t buckets, size_t elements, size_t more)
    __attribute__((weak));

WRAPPER(size_t, _ZNKSt8__detail20_Prime_rehash_policy11_M_next_bktEm, struct policy *policy, size_t wanted) {
  if (wanted) READ(&policy->most_load, sizeof policy->most_load);
  if (wanted) WRITE(&policy->next_resize, sizeof policy->next_resize);
  return _ZNKSt8__detail20_Prime_rehash_policy11_M_next_bktEm(policy, wanted);
}
WRAPPER(struct rehash, _ZNKSt8__detail20_Prime_rehash_policy14_M_need_rehashEmmm, struct policy *policy, size_t buckets, size_t elements, size_t more) {
  READ(&policy->next_resize, sizeof policy->next_resize);
  if (elements + more > policy->next_resize) {
    READ(&policy->most_load, sizeof policy->most_load);
    WRITE(&policy->next_resize, sizeof policy->next_resize);
  }
  return _ZNKSt8__detail20_Prime_rehash_policy14_M_need_rehashEmmm(policy, buckets, elements, more);
}

/* ---- hashes of bytes ---- */

extern size_t _ZSt11_Hash_bytesPKvmm(const void *from, size_t bytes, size_t seed) __attribute__((weak));
extern size_t _ZSt15_Fnv_hash_bytesPKvmm(const void *from, size_t bytes, size_t seed) __attribute__((weak));
WRAPPER(size_t, _ZSt11_Hash_bytesPKvmm, const void *from, size_t bytes, size_t seed) {
  READ(from, bytes);
  return _ZSt11_Hash_bytesPKvmm(from, bytes, seed);
}
WRAPPER(size_t, _ZSt15_Fnv_hash_bytesPKvmm, const void *from, size_t bytes, size_t seed) {
  READ(from, bytes);
  return _ZSt15_Fnv_hash_bytesPKvmm(from, bytes, seed);
}
