/* expect: race; localtime and gmtime give one place of libc's, localtime_r the caller's */
#include <cilk/cilk.h>
#include <time.h>
static int year(time_t now) {
  struct tm own;
  gmtime_r(&now, &own);
  return own.tm_year;
}
static int shared_year(time_t now) { return gmtime(&now)->tm_year; } /* race: a a */
int main(void) {
  int x = cilk_spawn year(0);
  int y = cilk_spawn year(1);
  cilk_sync;
  x += cilk_spawn shared_year(0);
  y += shared_year(1);
  cilk_sync;
  return x - y;
}
