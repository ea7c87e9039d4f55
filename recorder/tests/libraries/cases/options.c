/* expect: clean; getopt in the beginning, and its variables read by all */
#include <cilk/cilk.h>
#include <getopt.h>
#include <string.h>
static int use(void) { return optind + (int)strlen(optarg); }
int main(void) {
  char one[] = "options", two[] = "word", three[] = "-n", four[] = "17";
  char *words[] = {one, two, three, four, 0};
  if (getopt(4, words, "n:") != 'n' || getopt(4, words, "n:") != -1) return 1;
  optarg = words[2];
  int x = cilk_spawn use();
  int y = use();
  cilk_sync;
  return x - y;
}
