/* expect: clean; fgets, getline, fread and read write what came, and no more */
#include <cilk/cilk.h>
#include <stdio.h>
#include <stdlib.h>
#include <string.h>
#include <unistd.h>
static char a[32], b[32], c[32];
static char *line;
static size_t room;
static void get(FILE *file, int from) {
  if (!fgets(a, 32, file) || getline(&line, &room, file) != 4 || fread(b, 4, 8, file) != 2) exit(1);
  if (read(from, c, 32) != 5) exit(2);
}
int main(void) {
  int ends[2];
  FILE *file = tmpfile();
  fputs("one\ntwo\n12345678x", file);
  rewind(file);
  if (pipe(ends) || write(ends[1], "12345", 5) != 5) return 3;
  cilk_spawn get(file, ends[0]);
  a[5] = b[9] = c[5] = 1;
  cilk_sync;
  fclose(file);
  int bad = strcmp(a, "one\n") || strcmp(line, "two\n") || memcmp(b, "12345678x", 9) || memcmp(c, "12345", 5);
  free(line);
  return bad;
}
