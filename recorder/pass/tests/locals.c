/* Locals: which are told, and where they lie. */
#include <alloca.h>
#include <setjmp.h>

void sink(void *);
int *g_p;                                         /* object: 8 */
int g_x;                                          /* object: 4 */
struct pair { int a, b; };

int own(int i) {
  int a[4] = {1, 2, 3, 4};
  a[i] = 5;
  return a[i + 1];
}
int shared(int i) {                               /* frame: a 16 */
  int a[4] = {1, 2, 3, 4};                        /* told: write16 a */
  sink(a);
  a[i] = 5;                                       /* told: write4 a[] */
  return a[i + 1];                                /* told: read4 a[] */
}
void stored(void) {                               /* frame: x 4 */
  int x;
  g_p = &x;                                       /* told: write8 g_p */
  x = 1;                                          /* told: write4 x */
}
int by_pointer(void) {
  int x, *p = &x, **q = &p;
  **q = 1;
  return x;
}
int of_two(int c) {                               /* frame: x 4, y 4 */
  int x = 1, y = 2;                               /* told: write4 x; write4 y */
  return *(c ? &x : &y);                          /* told: read4 */
}
struct pair whole(void) {
  struct pair p = {1, 2}, q = p;
  return q;
}
void two_blocks(int c) {                          /* frame: a 4, b 8 */
  if (c) {
    int a;
    sink(&a);
    a = 1;                                        /* told: write4 a */
  } else {
    long b;
    sink(&b);
    b = 2;                                        /* told: write8 b */
  }
}
void aligned(void) {                              /* frame: c 1, v 32 */
  char c;
  __attribute__((aligned(32))) char v[32];
  sink(&c);
  sink(v);
}
void parameter(int n) {                           /* frame: n 4 */ /* told: write4 n */
  sink(&n);
}
void length(int n) {                              /* frame: none */
  int v[n];                                       /* dynamic: v */
  sink(v);
  v[0] = 1;                                       /* told: write4 v[] */
}
int own_length(int n) {
  int v[n];
  v[0] = 1;
  return v[0];
}
void taken(int n) {                               /* frame: none */
  char *p = alloca(n);                            /* dynamic: */
  sink(p);
  p[1] = 2;                                       /* told: write1 p[] */
}
int literal(void) {                               /* frame: - 8 */
  struct pair *p = &(struct pair){1, 2};          /* told: write4; write4 */
  sink(p);
  return p->b;                                    /* told: read4 p->b */
}
int keeps(int *p) { return *p; }                  /* told: read4 *p */
void not_kept(__attribute__((noescape)) int *p);
void escapes_so(void) {                           /* frame: x 4 */
  int x;
  not_kept(&x);
  x = 1;                                          /* told: write4 x */
}
jmp_buf g_j;                                      /* object: 200 */
int returns_twice(void) {
  int x = 0;
  if (setjmp(g_j))
    return x;
  x = 2;
  return g_x;                                     /* told: read4 g_x */
}
