// expect: refused; flags: -fopenmp -std=c++20; plain: no; says: as an attribute; no pragma is there to be told
int x;
int main() {
  [[omp::directive(parallel)]] // refused
  x++;
  return x == 0;
}
