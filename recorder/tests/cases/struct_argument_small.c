/* expect: race; so is one that fits into registers */
#include <cilk/cilk.h>
struct two { long first, second; } both;
long got;
static void use(struct two by_value) { got = by_value.second; }
static void child(struct two *at) { use(*at); } /* race: a */
int main(void) {
  cilk_spawn child(&both); /* spawn: a */
  both.second = 5;         /* race: a */
  cilk_sync;
  return got;
}
