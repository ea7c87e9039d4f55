/* Counts the ways to put n queens on an n by n board, so that none attacks another.   nqueens [N] */
#include <cilk/cilk.h>
#include <stdio.h>
#include <stdlib.h>
#include <string.h>

static int is_safe(const char *board, int row) {
  for (int above = 0; above < row; above++) {
    int apart = board[row] - board[above];
    if (apart == 0 || apart == row - above || apart == above - row)
      return 0;
  }
  return 1;
}

static long place(int n, int row, const char *board) {
  if (row == n)
    return 1;
  long total = 0, *ways = calloc(n, sizeof *ways);
#ifdef RACE
  char *shared = malloc(n); /* one scratch board for all columns */
#endif
  char **boards = malloc(n * sizeof *boards);
  for (int column = 0; column < n; column++) {
#ifdef RACE
    char *own = shared;
#else
    char *own = malloc(n);
#endif
    memcpy(own, board, row); /* race: a b b */
    own[row] = column;       /* race: a */
    boards[column] = own;
    if (is_safe(own, row))
      ways[column] = cilk_spawn place(n, row + 1, own); /* spawn: a b */
  }
  cilk_sync;
  for (int column = 0; column < n; column++)
    total += ways[column];
#ifdef RACE
  free(shared);
#else
  for (int column = 0; column < n; column++)
    free(boards[column]);
#endif
  free(boards);
  free(ways);
  return total;
}

int main(int argc, char **argv) {
  int n = argc > 1 ? atoi(argv[1]) : 6;
  printf("nqueens(%d) = %ld\n", n, place(n, 0, ""));
  return 0;
}
