/* expect: refused; plain: no; says: take one of Cilk Plus; also as the attribute, in a function without another keyword */
static void zero(void *view) { *(long *)view = 0; }
static void plus(void *left, void *right) { *(long *)left += *(long *)right; }
static long twice(long n) {
  long _Hyperobject(zero, plus) sum = n; /* refused */
  sum += n;
  return sum;
}
int main(void) { return twice(2) - 4; }
