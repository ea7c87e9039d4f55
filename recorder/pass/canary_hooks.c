/* The hooks of canary.c: they keep what is told. The pass leaves out what is PLAIN, and the hooks themselves. No
   function of the library is called: the pass would send its call to the runtime, which is not there. */
#include "rows.h"
#include <stddef.h>
#define PLAIN __attribute__((annotate("cilkcheck_plain"), noinline))

struct canary_big {
  long x[6];
};
static struct told {
  const void *at;
  size_t bytes;
  int kind;
  const struct cilkcheck_site *site;
} log_[256];
static struct entered {
  const char *locals;
  const struct cilkcheck_frame *frame;
} frames[64];
static unsigned count, told, wrong;
static int depth;
static const char *doing = "";
static struct {
  const void *at;
  size_t bytes;
} dynamic;

const struct cilkcheck_site *__cilkcheck_place;
const char __cilkcheck_version_1;

void __cilkcheck_access(const void *at, size_t bytes, int kind, const struct cilkcheck_site *site) {
  if (bytes && count < sizeof log_ / sizeof *log_)
    log_[count++] = (struct told){at, bytes, kind, site};
}
#define SIZED(n)                                                                                                       \
  void __cilkcheck_read##n(const void *at, const struct cilkcheck_site *site) {                                        \
    __cilkcheck_access(at, n, CILKCHECK_READ, site);                                                                   \
  }                                                                                                                    \
  void __cilkcheck_write##n(const void *at, const struct cilkcheck_site *site) {                                       \
    __cilkcheck_access(at, n, CILKCHECK_WRITE, site);                                                                  \
  }
SIZED(1)
SIZED(2) SIZED(4) SIZED(8)
    SIZED(16) void __cilkcheck_enter(const void *top, const void *locals, const struct cilkcheck_frame *frame) {
  if (depth < 64)
    frames[depth] = (struct entered){locals, frame};
  depth++;
  (void)top;
}
void __cilkcheck_leave(void) { depth--; }
void __cilkcheck_dynamic(const void *at, size_t bytes, const struct cilkcheck_site *site) {
  dynamic.at = at;
  dynamic.bytes = bytes;
  (void)site;
}

PLAIN static void say(const char *text) {
  size_t length = 0;
  while (text[length])
    length++;
  long number = 1; /* write */
  __asm__ volatile("syscall" : "+a"(number) : "D"(1L), "S"(text), "d"(length) : "rcx", "r11", "memory");
}
PLAIN static void say_number(unsigned number) {
  char digits[12], *first = digits + sizeof digits - 1;
  *first = 0;
  do
    *--first = '0' + number % 10;
  while (number /= 10);
  say(first);
}
PLAIN static void fail(unsigned line, const char *what) {
  say("canary: line ");
  say_number(line);
  say(": ");
  say(doing);
  say(": ");
  say(what);
  say("\n");
  wrong++;
}
/* Stands for a function that is compiled elsewhere: its caller tells of its result. */
PLAIN static struct canary_big canary_make(void) { return (struct canary_big){{1}}; }
/* From here on, accesses count. */
PLAIN static void canary_begin(const char *what) {
  doing = what;
  count = 0;
}
/* Fails where since the begin no hook has told of this access, of this line. */
PLAIN static void canary_told(unsigned line, const volatile void *at, size_t bytes, int kind) {
  for (unsigned i = 0; i < count; i++)
    if (log_[i].at == at && log_[i].bytes == bytes && log_[i].kind == kind) {
      if (log_[i].site->line != line || !cilkcheck_text(&log_[i].site->code))
        fail(line, "told of another line");
      told++;
      return;
    }
  fail(line, "not told");
}
/* Fails where the running function has not been entered with this local. */
PLAIN static void canary_frame(const void *local, size_t bytes) {
  const struct entered *it = depth > 0 && depth <= 64 ? &frames[depth - 1] : NULL;
  doing = "a local";
  for (unsigned i = 0; it && i < it->frame->local_count; i++) {
    const struct cilkcheck_local *row = (const struct cilkcheck_local *)cilkcheck_target(&it->frame->locals) + i;
    if (it->locals + row->offset == local && row->bytes == bytes && cilkcheck_text(&row->name))
      return;
  }
  fail(0, "not in a frame");
}
PLAIN static void canary_dynamic(const void *at, size_t bytes) {
  doing = "an array";
  if (dynamic.at != at || dynamic.bytes != bytes)
    fail(0, "its begin is not told");
}
PLAIN static void canary_depth(int wanted) {
  doing = "entries and exits";
  if (depth != wanted)
    fail(0, "not as many exits as entries");
}
PLAIN static int canary_end(void) {
  if (wrong)
    return 1;
  say("canary: ");
  say_number(told);
  say(" accesses told\n");
  return 0;
}
