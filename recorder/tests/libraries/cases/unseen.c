/* expect: clean; unseen: tsearch; a function of libc that is in no list */
#include <search.h>
#include <string.h>
static int compare(const void *x, const void *y) { return strcmp(x, y); }
int main(void) {
  void *root = 0;
  return tsearch("a", &root, compare) == 0;
}
