/* Reducers of the program: numbered by the address of the object, from 0, each number once in a run.

   An update conflicts with nothing, so of a strand's operations on a reducer the first of each kind is told (law `a_repeated_access`).

   Invariants: `slots` is a hash table with open addressing, at most half full; a slot whose reducer was unmade keeps its key, and has no
   number until an object is made there again. */
#include "abi.h"
#include "recorder.h"

#define MOST_REDUCERS 1000000u
#define NO_NUMBER UINT32_MAX

struct slot { uintptr_t key, view; size_t bytes; uint32_t number, strand, told; };
static struct slot *slots;
static size_t slot_mask, slots_used;
static uint32_t numbers;

static struct slot *find(uintptr_t key) {
  size_t at = (size_t)((key >> 3) * 0x9E3779B97F4A7C15ull >> 20) & slot_mask;
  while (slots[at].key && slots[at].key != key) at = (at + 1) & slot_mask;
  return &slots[at];
}
static void grow(void) {
  struct slot *old = slots;
  size_t count = slots ? slot_mask + 1 : 0;
  slot_mask = count ? 4 * count - 1 : 1023;
  slots = reserve((slot_mask + 1) * sizeof *slots);
  slots_used = 0;
  for (size_t i = 0; i < count; i++)
    if (old[i].key && old[i].number != NO_NUMBER) { *find(old[i].key) = old[i]; slots_used++; }
  if (old) unreserve(old, count * sizeof *old);
}
static void end_view(struct slot *slot) {
  if (slot->bytes) end_lives(slot->view, slot->view + slot->bytes);
  slot->number = NO_NUMBER;
}
static void make(struct slot *slot, uintptr_t key, uintptr_t view, size_t bytes, uintptr_t place) {
  if (numbers == MOST_REDUCERS) refuse(place, "more than %u reducers", MOST_REDUCERS);
  if (!slot->key) slots_used++;
  *slot = (struct slot){key, view, bytes, numbers++, 0, 0};
  if (bytes) hide_memory(view, view + bytes);
  scope_reducer(REDUCER_MADE, slot->number, place);
  slot->strand = scope_strand();
  slot->told = 1u << REDUCER_MADE | 1u << REDUCER_PUT;
}

void __cilkcheck_reducer(site_row site, void *key, int operation, void *view, size_t bytes) {
  start_recording();
  if (!recording) return;
  if (2 * (slots_used + 1) > slot_mask + 1 || !slots) grow();
  struct slot *slot = find((uintptr_t)key);
  bool known = slot->key && slot->number != NO_NUMBER;
  if (operation == REDUCER_UNMADE) {
    if (known) end_view(slot);
    return;
  }
  if (operation == REDUCER_MADE && known) end_view(slot);
  if (operation == REDUCER_MADE || !known) make(slot, (uintptr_t)key, (uintptr_t)view, bytes, (uintptr_t)site);
  if (operation == REDUCER_MADE) return;
  if (slot->strand != scope_strand()) { slot->strand = scope_strand(); slot->told = 0; }
  if (slot->told & 1u << operation) return;
  slot->told |= 1u << operation;
  scope_reducer((enum reducer_operation)operation, slot->number, (uintptr_t)site);
}
