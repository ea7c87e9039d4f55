/* C++: members, references, results, exceptions, statics, templates. flags: -std=c++17 */
#include <new>

void sink(void *);
void may_throw(int);
int g_n;                                          /* object: 4 */
struct Base { virtual int get() { return v; } virtual ~Base(); int v; };
int virtual_(Base *b) { return b->get(); }        /* told: read8 *b; read8 **b */

struct Point {
  int x, y;
  __attribute__((noinline)) int sum() const { return x + y; } /* told: read4 this->x; read4 this->y */
  __attribute__((noinline)) Point &move(int by) { x += by; return *this; } /* told: read4 this->x; write4 this->x */
};
#define APART __attribute__((noinline))
struct Wrapped { double d; APART Wrapped(double of) : d(of) {} APART double get() const { return d; } }; /* told: write8 this->d; read8 this->d */
struct Derived : Point { long own; APART long get() { return own + y; } }; /* told: read8 this->own; read4 this->y */
double wrapped() { Wrapped it(2); return it.get(); } /* frame: it 8 */
long derived(Derived *d) { return d->get() + d->x; } /* told: read4 d->x */
int by_reference(int &r) { return r++; }          /* told: read4 r; write4 r */
int reference_of(Point &p) { return p.y; }        /* told: read4 p.y */
Point &moved(Point &p) { return p.move(1); }
int summed(const Point &p) { return p.sum(); }
int array_of(int (&list)[4], int i) { return list[i]; } /* told: read4 list[] */

// results and arguments that have constructors lie in memory
struct Held { int *p; Held(); Held(const Held &); ~Held(); };
Held::Held() : p() {}                             /* told: write8 this->p */
Held held();
int takes(Held h);
int *result() { return held().p; }                /* frame: - 8 */ /* told: write8 */
int argument() { return takes(held()); }          /* frame: - 8 */ /* told: write8 */
int taken(Held h) { return *h.p; }                /* told: read8 h.p; read4 *h.p */

// exceptions
struct Guard { int *n; APART explicit Guard(int *n) : n(n) {} APART ~Guard() { --*n; } }; /* told: write8 this->n; read8 this->n; read4 *this->n; write4 *this->n */
void cleanup(int x) { Guard guard(&g_n); may_throw(x); } /* frame: guard 8 */
int caught(int x) {
  try {
    may_throw(x);
  } catch (int e) {                               /* told: read4 */
    return g_n + e;                               /* told: read4 g_n */
  }
  return 0;
}
int thrown(int x) { throw x; }                    /* told: write4 */

// memory
int *made() { return new int(3); }                /* told: write4 */
void deleted(int *p) { delete p; }
int once() {
  static int x = g_n;                             /* told: load1 guard variable for once()::x; read4 g_n; write4 x */ /* object: 4 */
  return x;                                       /* told: read4 x */
}
inline int of_all = 3;                            /* object: 4 */
template <class T> struct Of { static T each; };
template <class T> T Of<T>::each = 4;             /* object: 8 */
long templates() { return of_all + Of<long>::each; } /* told: read4 of_all; read8 each */

// closures
int captured(int x) {                             /* frame: x 4, by_reference 8 */ /* told: write4 x */
  auto by_reference = [&x]() APART { return x++; };       /* told: write8 by_reference.x; read8 this->x; read4 this->x; write4 this->x */
  sink(&by_reference);
  return by_reference();
}
struct empty {};
void nothing(empty e, empty *p) { *p = e; }
bool compares(Base *a) { return dynamic_cast<Base *>(a) == a; }
