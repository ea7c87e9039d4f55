/* Counts the words of a text, by halves.   words [LENGTH] */
#include <cilk/cilk.h>
#include <stdio.h>
#include <stdlib.h>

static long words;

static void count(const char *text, long length) {
  if (length < 1000) {
    for (long i = 1; i < length; i++)
      if (text[i] == ' ' && text[i - 1] != ' ')
        words++;
    return;
  }
  cilk_spawn count(text, length / 2);
  count(text + length / 2, length - length / 2);
}

int main(int argc, char **argv) {
  long length = argc > 1 ? atol(argv[1]) : 10000;
  char *text = malloc(length);
  for (long i = 0; i < length; i++)
    text[i] = i % 6 ? 'x' : ' ';
  count(text, length);
  printf("%ld words\n", words);
  free(text);
  return 0;
}
