/* The log's bytes. log.h states the form. */
#include "log.h"

#define MOST_BYTES (1u << 29)
#define LONGEST_EVENT 32u

static uint8_t *log_bytes;
static struct log_place log_end;
static uint32_t requests_end;                  /* behind the last event that is a request */

void log_begin(void) { log_bytes = reserve(MOST_BYTES); }
struct log_place log_here(void) { return log_end; }
bool log_has_requests(struct log_place place) { return requests_end > place.bytes; }
void log_cut(struct log_place place) { log_end = place; }

static void put_number(uint32_t number) {
  while (number >= 0x80) { log_bytes[log_end.bytes++] = (uint8_t)(number | 0x80); number >>= 7; }
  log_bytes[log_end.bytes++] = (uint8_t)number;
}
static void put_head(enum log_event event, uint32_t high) {
  if (log_end.bytes > MOST_BYTES - LONGEST_EVENT) refuse(0, "more than %u bytes of spawns and syncs: take a smaller input", MOST_BYTES);
  log_bytes[log_end.bytes++] = (uint8_t)((uint32_t)event | high << 4);
}
RARE void log_event(enum log_event event, uint32_t site) {
  put_head(event, 0);
  put_number(site);
}
static void put_request(enum log_event event, uint32_t high, uint32_t of, uint32_t site) {
  put_head(event, high);
  put_number(of);
  put_number(site);
  requests_end = log_end.bytes;
}
void log_reducer(enum reducer_operation operation, uint32_t reducer, uint32_t site) { put_request(LOG_REDUCER, (uint32_t)operation, reducer, site); }
void log_access(enum access kind, uint32_t location, uint32_t site) { put_request(LOG_ACCESS, (uint32_t)kind, location, site); }

static inline uint32_t get_number(uint32_t *at) {
  uint32_t number = log_bytes[*at], shift = 0;
  (*at)++;
  if (number < 0x80) return number;
  number &= 0x7F;
  uint8_t more;
  do { more = log_bytes[(*at)++]; shift += 7; number |= (uint32_t)(more & 0x7F) << shift; } while (more & 0x80);
  return number;
}

uint32_t log_read(uint32_t at, struct log_item *item) {
  uint32_t head = log_bytes[at++], high = head >> 4;
  item->event = (enum log_event)(head & 15);
  item->kind = high;
  if (item->event == LOG_REDUCER || item->event == LOG_ACCESS) item->of = get_number(&at);
  item->site = get_number(&at);
  return at;
}
