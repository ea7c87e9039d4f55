/* expect: race; a program's own function of a name of libc's is compiled and seen */
#include <cilk/cilk.h>
int count;
int getline(int n) {
  count += n; /* race: a a */
  return count;
}
int main(void) {
  int x = cilk_spawn getline(1);
  int y = getline(2);
  cilk_sync;
  return x + y - 4;
}
