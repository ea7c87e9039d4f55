/* expect: race; wide characters are four bytes each */
#include <cilk/cilk.h>
#include <wchar.h>
static wchar_t a[8], b[8] = L"abc";
static void copy(void) { wcscpy(a, b); } /* race: a */
int main(void) {
  cilk_spawn copy();
  a[4] = L'x';
  a[3] = 0; /* race: a */
  cilk_sync;
  return wcscmp(a, L"abc");
}
