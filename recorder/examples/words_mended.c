/* Counts the words of a text, by halves.   words [LENGTH] */
#include <cilk/cilk.h>
#include <cilk/reducer_opadd.h>
#include <stdio.h>
#include <stdlib.h>

static CILK_C_REDUCER_OPADD(words, long, 0);

static void count(const char *text, long length) {
  if (length < 1000) {
    for (long i = 1; i < length; i++)
      if (text[i] == ' ' && text[i - 1] != ' ')
        REDUCER_VIEW(words)++;
    return;
  }
  cilk_spawn count(text, length / 2);
  count(text + length / 2, length - length / 2);
}

int main(int argc, char **argv) {
  long length = argc > 1 ? atol(argv[1]) : 10000;
  char *text = malloc(length);
  for (long i = 0; i < length; i++)
    text[i] = i % 6 ? 'x' : ' ';
  CILK_C_REGISTER_REDUCER(words);
  count(text, length);
  printf("%ld words\n", REDUCER_GET(words));
  free(text);
  return 0;
}
