/* One function for each kind of access. flags: -std=gnu11 -mavx2 */
#include <stdarg.h>
#include <stdatomic.h>
#include <stddef.h>
#include <string.h>

int g_x;                                          /* object: 4 */
char g_c;                                         /* object: 1 */
short g_s;                                        /* object: 2 */
long g_l;                                         /* object: 8 */
float g_f;                                        /* object: 4 */
double g_d;                                       /* object: 8 */
long double g_ld;                                 /* object: 16 */
__int128 g_128;                                   /* object: 16 */
_Bool g_b;                                        /* object: 1 */
_Complex double g_cd;                             /* object: 16 */
int *g_p;                                         /* object: 8 */
int g_a[10];                                      /* object: 40 */
int g_m[4][5];                                    /* object: 80 */
const int g_const = 4;
static const int table[4] = {1, 2, 3, 4};
struct big { long x[6]; } g_big, g_big2;          /* object: 48; 48 */
struct small { int a, b; } g_small;               /* object: 8 */
struct bits { unsigned a : 3, b : 5; unsigned char c; unsigned long d : 40; } g_bits; /* object: 8 */
struct packed { char c; int i; double d; } __attribute__((packed)) g_packed; /* object: 13 */
struct node { int value; struct node *next; struct { double re, im; } in; short w[3]; } g_node; /* object: 40 */
union both { int i; double d; } g_both;           /* object: 8 */
volatile int g_vol;                               /* object: 4 */
_Atomic int g_at;                                 /* object: 4 */
_Thread_local int g_tls;

void read_int(void) { int x = g_x; (void)x; }                           /* told: read4 g_x */
void write_int(void) { g_x = 1; }                                       /* told: write4 g_x */
void update_int(void) { g_x++; }                                        /* told: read4 g_x; write4 g_x */
void add_int(int n) { g_x += n; }                                       /* told: read4 g_x; write4 g_x */
void write_char(void) { g_c = 1; }                                      /* told: write1 g_c */
void write_short(void) { g_s = 1; }                                     /* told: write2 g_s */
void write_long(void) { g_l = 1; }                                      /* told: write8 g_l */
void float_(void) { g_f = g_f * 2; }                                    /* told: read4 g_f; write4 g_f */
void double_(void) { g_d = g_d * 2; }                                   /* told: read8 g_d; write8 g_d */
void long_double(void) { g_ld = g_ld * 2; }                             /* told: read10 g_ld; write10 g_ld */
void int128(void) { g_128++; }                                          /* told: read16 g_128; write16 g_128 */
void bool_(void) { g_b = 1; }                                           /* told: write1 g_b */
void complex_(void) { g_cd = 2; }                                       /* told: write8 g_cd; write8 g_cd */
int *pointer(void) { return g_p; }                                      /* told: read8 g_p */
void behind(void) { *g_p = 1; }                                         /* told: read8 g_p; write4 *g_p */
void element(int i) { g_a[i] = 1; }                                     /* told: write4 g_a[] */
void third(void) { g_a[3] = 1; }                                        /* told: write4 g_a[] */
void matrix(int i, int j) { g_m[i][j] = 1; }                            /* told: write4 g_m[][] */
void argument(int *p) { *p = 1; }                                       /* told: write4 *p */
void indexed(int *p, int i) { p[i] = 1; }                               /* told: write4 p[] */
void fifth(int *p) { p[5] = 1; }                                        /* told: write4 p[] */
void twofold(int **q) { **q = 1; }                                      /* told: read8 *q; write4 **q */
void rows(int (*m)[5], int i, int j) { m[i][j] = 1; }                   /* told: write4 m[][] */
void member(struct node *n) { n->value = 1; }                           /* told: write4 n->value */
void deep(struct node *n) { n->in.im = 1; }                             /* told: write8 n->in.im */
void listed(struct node *n, int i) { n->w[i] = 1; }                     /* told: write2 n->w[] */
void next(struct node *n) { n->next->value = 1; }                       /* told: read8 n->next; write4 n->next->value */
void several(struct node *n, int i) { n[i].in.re = 1; }                 /* told: write8 n[].in.re */
void global_member(void) { g_node.in.re = 1; }                          /* told: write8 g_node.in.re */
void first_member(void) { g_node.value = 1; }                           /* told: write4 g_node.value */
void united(union both *u) { u->i = 1; }                                /* told: write4 *u */
int constant(int i) { return table[i] + g_const + "abc"[i]; }
extern const int declared;
int maybe_no_constant(void) { return declared; }                        /* told: read4 declared */

/* bit-fields: their storage unit */
void bit_write(struct bits *p) { p->b = 3; }                            /* told: read1 *p; write1 *p */
unsigned bit_read(struct bits *p) { return p->a; }                      /* told: read1 *p */
void bit_wide(struct bits *p) { p->c = 3; }                             /* told: write1 p->c */

struct shared_unit { long a : 33; long b : 31; } g_unit;                /* object: 8 */
long bits_of_one_unit(void) { return g_unit.a; }                        /* told: read8 g_unit */
struct tailed { int n; char tail[]; };
int tail(struct tailed *t, int i) { return t->tail[i] + t->tail[0]; }   /* told: read1 t->tail[]; read1 t->tail[] */

void packed(void) { g_packed.i = 1; }                                   /* told: write4 g_packed.i */
double packed_double(struct packed *p) { return p->d; }                 /* told: read8 p->d */
void unaligned(char *p) { *(int *)(p + 1) = 1; }                        /* told: write4 p[] */

/* structures */
void copy(void) { g_big = g_big2; }                                     /* told: read48 g_big2; write48 g_big */
void copy_small(struct small *p) { g_small = *p; }                      /* told: read8 *p; write8 g_small */
void clear(struct big *p) { *p = (struct big){0}; }                     /* told: write48 *p */
void dead_copy(struct big *p) { struct big unused = *p; (void)unused; } /* told: read48 *p */
long part_of_copy(struct big *p) { struct big own = *p; return own.x[1]; } /* told: read48 *p */
struct big give(void) { return g_big; }                                 /* told: read48 g_big; write48 */

/* arguments and results in memory */
__attribute__((noinline)) long takes_big(struct big b) { return b.x[1]; }
long passes_big(void) { return takes_big(g_big); }                      /* told: read48 g_big */
__attribute__((noinline)) int takes_small(struct small s) { return s.a; }
int passes_small(void) { return takes_small(g_small); }                 /* told: read8 g_small */
struct big made_elsewhere(void);
void takes_result(struct big *p) { *p = made_elsewhere(); }             /* frame: - 48 */ /* told: write48; write48 *p */
void own_argument(struct big b) { void sink(void *); sink(&b); b.x[0] = 1; } /* frame: b 48 */ /* told: write48 b; write8 b.x[] */

/* volatile, dead, repeated */
void volatile_(void) { g_vol; g_vol = 1; }                              /* told: read4 g_vol; write4 g_vol */
void dead(int *p) { *p; }                                               /* told: read4 *p */
void dead_local(int *p) { int unused = *p; }                            /* told: read4 *p */
void twice(int *p) { *p = 1; *p = 2; }                                  /* told: write4 *p */
int read_twice(int *p) { return *p + *p; }                              /* told: read4 *p */
void elsewhere(void);
void twice_around(int *p) {
  *p = 1;                                                               /* told: write4 *p */
  elsewhere();
  *p = 2;                                                               /* told: write4 *p */
}
int after_write(int *p, int i) {
  p[i] = 1;                                                             /* told: write4 p[] */
  return p[i];
}
int before_write(int *p) {
  int x = *p;                                                           /* told: read4 *p */
  *p = x + 1;                                                           /* told: write4 *p */
  return *p;
}
int smaller(long *p) {
  *p = 1;                                                               /* told: write8 *p */
  return *(int *)p;
}
int larger(long *p) {
  *(int *)p = 1;                                                        /* told: write4 *p */
  return *p;                                                            /* told: read8 *p */
}
int in_branches(int *p, int c) {
  if (c)
    elsewhere();
  else
    *p = 1;                                                             /* told: write4 *p */
  return *p;                                                            /* told: read4 *p */
}
int other_index(int *p, int i) {
  p[i++] = 1;                                                           /* told: write4 p[] */
  return p[i];                                                          /* told: read4 p[] */
}
int pointer_changes(int **q, int *r) {
  **q = 1;                                                              /* told: read8 *q; write4 **q */
  *q = r;                                                               /* told: write8 *q */
  return **q;                                                           /* told: read4 **q */
}

/* atomics */
void atomic_update(void) { g_at++; }                                    /* told: bump4 g_at */
int atomic_load_(void) { return g_at; }                                 /* told: load4 g_at */
void atomic_store_(void) { g_at = 1; }                                  /* told: bump4 g_at */
void relaxed(int *p) { __atomic_fetch_add(p, 1, __ATOMIC_RELAXED); }    /* told: bump4 *p */
void exchange(int *p) { __atomic_exchange_n(p, 1, __ATOMIC_SEQ_CST); }  /* told: bump4 *p */
void compare(int *p) { int e = 1; atomic_compare_exchange_strong((_Atomic int *)p, &e, 2); } /* told: either4 *p */
void big_atomic(struct big *p, struct big *q) { __atomic_store(p, q, 5); } /* told: read48 *q; bump48 *p */
void big_load(struct big *p, struct big *q) { __atomic_load(p, q, 5); } /* told: load48 *p; write48 *q */
_Bool big_compare(struct big *p, struct big *q, struct big *r) {
  return __atomic_compare_exchange(p, q, r, 0, 5, 5);                   /* told: read48 *q; read48 *r; either48 *p; write? *q */
}
int atomic_between(int *p) {
  *p = 1;                                                               /* told: write4 *p */
  g_at++;                                                               /* told: bump4 g_at */
  return *p;                                                            /* told: read4 *p */
}

/* blocks of memory */
void copies(char *p, char *q) { __builtin_memcpy(p, q, 8); }            /* told: read8 *q; write8 *p */
void copies_n(char *p, char *q, size_t n) { memcpy(p, q, n); }
void copies_builtin(char *p, char *q, size_t n) { __builtin_memcpy(p, q, n); } /* told: read? *q; write? *p */
void moves(char *p, char *q) { __builtin_memmove(p, q, 3); }            /* told: read3 *q; write3 *p */
void sets(char *p) { __builtin_memset(p, 0, 100); }                     /* told: write100 *p */
void sets_n(char *p, size_t n) { __builtin_memset(p, 1, n); }           /* told: write? *p */
void inlined(char *p, char *q) { __builtin_memcpy_inline(p, q, 5); }    /* told: read5 *q; write5 *p */
void checked(char *q) { __builtin___memcpy_chk(g_a, q, 8, sizeof g_a); } /* told: read8 *q; write8 g_a[] */
void from_constant(char *p) { __builtin_memcpy(p, table, 16); }         /* told: write16 *p */
void none(char *p, char *q) { __builtin_memcpy(p, q, 0); }

/* vectors */
typedef float v8 __attribute__((vector_size(32)));
v8 g_v;                                                                 /* object: 32 */
void vector(void) { g_v += 1; }                                         /* told: read32 g_v; write32 g_v */
void lane(v8 *p, int i) { (*p)[i] = 1; }                                /* told: read32 *p; write32 *p */
void stream(int *p) { __builtin_nontemporal_store(1, p); }              /* told: write4 *p */
int streamed(int *p) { return __builtin_nontemporal_load(p); }          /* told: read4 *p */

/* lists of arguments */
long sum(int n, ...) {                                                  /* frame: none */
  va_list l;
  va_start(l, n);
  long s = va_arg(l, long);                                             /* told: read8 */
  va_end(l);
  return s;
}
void takes_list(va_list *l) {
  va_list copy;
  va_copy(copy, *l);                                                    /* told: read24 *l */
  va_end(copy);
}
void starts_list(va_list *l, int n, ...) {                              /* frame: none */
  va_start(*l, n);                                                      /* told: write24 *l */
}
int passes_list(void) {                                                 /* frame: none */
  return sum(1, 2L);
}

/* thread-local, static, through a cast */
int thread_local_(void) { return g_tls++; }                             /* told: read4 g_tls; write4 g_tls */
int static_(void) {
  static int calls = 3;                                                 /* object: 4 */
  return ++calls;                                                       /* told: read4 calls; write4 calls */
}
int number(unsigned long at) { return *(int *)at; }                     /* told: read4 */
int chosen(int c, int *p) { return *(c ? p : g_a); }                    /* told: read4 */

/* whatever its attributes say */
__attribute__((no_sanitize("thread", "address", "coverage"))) void unsanitized(void) { g_x = 1; } /* told: write4 g_x */
__attribute__((disable_sanitizer_instrumentation)) void disabled(void) { g_x = 1; } /* told: write4 g_x */
__attribute__((pure)) int pure(void) { return g_x; }                    /* told: read4 g_x */
__attribute__((const)) int constant_function(void) { return g_x; }      /* told: read4 g_x */
__attribute__((optnone, noinline)) void unoptimized(void) { g_x = 1; }  /* told: write4 g_x */
__attribute__((always_inline)) inline void inlined_always(int *p) { *p = 1; } extern void inlined_always(int *p); /* told: write4 *p */
__attribute__((cold, flatten)) void flattened(void) { inlined_always(g_a); }
__attribute__((nodebug)) void no_debug(void) { g_x = 1; } /* told nowhere: write4 g_x */
__attribute__((target_clones("avx2", "default"))) void cloned(void) { g_x = 1; } /* told: write4 g_x; write4 g_x */
__attribute__((annotate("cilkcheck_plain"))) void plain(void) { g_x = 1; }

/* assembly */
void in_memory(void) { __asm__ volatile("incl %0" : "+m"(g_x)); }       /* told: read4 g_x; write4 g_x */
void reads_memory(int *p) { int x; __asm__ volatile("movl %1, %0" : "=r"(x) : "m"(*p)); } /* told: read4 *p */
void barrier(void) { __asm__ volatile("" ::: "memory"); }
void clobbers(void *p) { __asm__ volatile("rep stosb" : "+D"(p) : "a"(0), "c"(4) : "memory"); } /* note: inline assembly */
__attribute__((naked)) void naked(void) { __asm__("ret"); }             /* note: a naked function */
int segment(__attribute__((address_space(256))) int *p) { return *p; }  /* note: memory of a segment of its own (address space 256) */
