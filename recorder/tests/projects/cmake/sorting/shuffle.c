void shuffle(int *at, int count) {
  unsigned seed = 1;
  for (int i = 0; i < count; i++)
    at[i] = (seed = seed * 1664525 + 1013904223) >> 8;
}
