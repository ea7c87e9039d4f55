/* Reducers of Cilk Plus. Recorded, a construction or a set is a `put`, a read of the value a `get`, any other use of the view an `update`.
   A serial run has one view of each reducer, which is its value; the view is no memory of the program, so its accesses are not looked
   at. Without the recorder this is the serial elision. */
#ifndef CILKCHECK_CILK_REDUCER_H
#define CILKCHECK_CILK_REDUCER_H
#include <cilk/cilk.h>
#include <stddef.h>

#define CILKCHECK_MADE 0
#define CILKCHECK_UPDATE 1
#define CILKCHECK_PUT 2
#define CILKCHECK_GET 3
#define CILKCHECK_UNMADE 4
#if defined __CILKCHECK__ && !defined __CILKCHECK_ELISION__
#define CILKCHECK_RECORDED
#endif
#ifdef CILKCHECK_RECORDED
#ifdef __cplusplus
extern "C" {
#endif
/* Marks, as the rewriter's (calls.h). */
extern void __cilkcheck_mark_reducer(void *key, int operation, void *view, size_t bytes) __attribute__((nothrow));
extern void __cilkcheck_mark_hide(int on) __attribute__((nothrow));
#ifdef __cplusplus
}
#endif
#define CILKCHECK_REDUCER(key, operation, view, bytes) __cilkcheck_mark_reducer((void *)(key), operation, (void *)(view), bytes)
#define CILKCHECK_HIDE(on) __cilkcheck_mark_hide(on)
#else
#define CILKCHECK_REDUCER(key, operation, view, bytes) ((void)0)
#define CILKCHECK_HIDE(on) ((void)0)
#endif

/* ---- C ---- */

/* The value of a reducer of C is used through REDUCER_VIEW alone; recorded, it has no member `value`, so that no access of it is missed. */
#ifdef CILKCHECK_RECORDED
#define CILKCHECK_VALUE cilkcheck_view
#else
#define CILKCHECK_VALUE value
#endif
#define CILK_C_DECLARE_REDUCER(type) struct { type CILKCHECK_VALUE; }
/* CILK_C_INIT_REDUCER(type, reduce, identity, destroy, value..) */
#define CILK_C_INIT_REDUCER(type, reduce, identity, destroy, ...) { __VA_ARGS__ }
#define CILKCHECK_ON(reducer, operation) CILKCHECK_REDUCER(&(reducer), operation, &(reducer).CILKCHECK_VALUE, sizeof (reducer).CILKCHECK_VALUE)
#define CILK_C_REGISTER_REDUCER(reducer) CILKCHECK_ON(reducer, CILKCHECK_MADE)
#define CILK_C_UNREGISTER_REDUCER(reducer) CILKCHECK_ON(reducer, CILKCHECK_UNMADE)
#define REDUCER_VIEW(reducer) (*(CILKCHECK_ON(reducer, __cilkcheck_use), &(reducer).CILKCHECK_VALUE))
/* An update, where the rewriter does not see that the view is read or set (rewriter/reducers.py). */
enum { __cilkcheck_use = CILKCHECK_UPDATE };
/* Cilk Plus has no words in C for a read and for a set of the value: these two are cilkcheck's. */
#define REDUCER_GET(reducer) (CILKCHECK_ON(reducer, CILKCHECK_GET), (reducer).CILKCHECK_VALUE)
#define REDUCER_PUT(reducer, new_value) ((void)(CILKCHECK_ON(reducer, CILKCHECK_PUT), (reducer).CILKCHECK_VALUE = (new_value)))

/* The names of types in the macros of C: CILK_C_REDUCER_OPADD(sum, ulong, 0). */
#define CILKCHECK_C_TYPE(name) __cilkcheck_c_##name
typedef char __cilkcheck_c_char;
typedef signed char __cilkcheck_c_schar;
typedef unsigned char __cilkcheck_c_uchar;
#ifdef __cplusplus
typedef wchar_t __cilkcheck_c_wchar_t;
#else
typedef __WCHAR_TYPE__ __cilkcheck_c_wchar_t;
#endif
typedef short __cilkcheck_c_short;
typedef unsigned short __cilkcheck_c_ushort;
typedef int __cilkcheck_c_int;
typedef unsigned int __cilkcheck_c_uint, __cilkcheck_c_unsigned;
typedef long __cilkcheck_c_long;
typedef unsigned long __cilkcheck_c_ulong;
__extension__ typedef long long __cilkcheck_c_longlong;
__extension__ typedef unsigned long long __cilkcheck_c_ulonglong;
typedef float __cilkcheck_c_float;
typedef double __cilkcheck_c_double;
typedef long double __cilkcheck_c_longdouble;

/* ---- C++ ---- */

#ifdef __cplusplus
#include <new>
#include <utility>
#define CILKCHECK_INLINE inline

namespace cilk {
/* While one lives, accesses are not looked at: the work of a view on memory of its own. */
struct cilkcheck_hidden {
  CILKCHECK_INLINE cilkcheck_hidden() { CILKCHECK_HIDE(1); }
  CILKCHECK_INLINE ~cilkcheck_hidden() { CILKCHECK_HIDE(0); }
};

/* What a monoid of the user's derives from. */
template <class Value, class View = Value> class monoid_base {
public:
  typedef Value value_type;
  typedef View view_type;
  void destroy(view_type *p) const { p->~view_type(); }
  void *allocate(size_t bytes) const { return operator new(bytes); }
  void deallocate(void *p) const { operator delete(p); }
  void identity(view_type *p) const { ::new ((void *)p) View(); }
};
template <class View> class monoid_with_view : public monoid_base<typename View::value_type, View> {
public:
  void reduce(View *left, View *right) const { left->reduce(right); }
};

/* A view that is a value. */
template <class T> class scalar_view {
protected:
  T m_value;
public:
  typedef T value_type;
  CILKCHECK_INLINE scalar_view() : m_value() {}
  CILKCHECK_INLINE scalar_view(const T &v) : m_value(v) {}
  CILKCHECK_INLINE void view_move_in(T &v) { m_value = std::move(v); }
  CILKCHECK_INLINE void view_move_out(T &v) { v = std::move(m_value); }
  CILKCHECK_INLINE void view_set_value(const T &v) { m_value = v; }
  CILKCHECK_INLINE const T &view_get_value() const { return m_value; }
};

/* How the value of a view is read and set: by the view's own functions where it has them, else the view is the value. */
template <class Value, class View> struct cilkcheck_value {
  CILKCHECK_INLINE static const Value &get(const View &view) { return view.view_get_value(); }
  CILKCHECK_INLINE static void set(View &view, const Value &value) { view.view_set_value(value); }
  CILKCHECK_INLINE static void in(View &view, Value &value) { view.view_move_in(value); }
  CILKCHECK_INLINE static void out(View &view, Value &value) { view.view_move_out(value); }
};
template <class Value> struct cilkcheck_value<Value, Value> {
  CILKCHECK_INLINE static const Value &get(const Value &view) { return view; }
  CILKCHECK_INLINE static void set(Value &view, const Value &value) { view = value; }
  CILKCHECK_INLINE static void in(Value &view, Value &value) { view = std::move(value); }
  CILKCHECK_INLINE static void out(Value &view, Value &value) { value = std::move(view); }
};

template <class Monoid> class reducer {
public:
  typedef Monoid monoid_type;
  typedef typename Monoid::value_type value_type;
  typedef typename Monoid::view_type view_type;

private:
  typedef cilkcheck_value<value_type, view_type> value_of;
  Monoid m_monoid;
  union { view_type m_view; };

public:
  CILKCHECK_INLINE reducer() {
    CILKCHECK_REDUCER(this, CILKCHECK_MADE, &m_view, sizeof m_view);
    m_monoid.identity(&m_view);
  }
  template <class A> CILKCHECK_INLINE explicit reducer(const A &a) {
    CILKCHECK_REDUCER(this, CILKCHECK_MADE, &m_view, sizeof m_view);
    ::new ((void *)&m_view) view_type(a);
  }
  template <class A, class B> CILKCHECK_INLINE reducer(const A &a, const B &b) {
    CILKCHECK_REDUCER(this, CILKCHECK_MADE, &m_view, sizeof m_view);
    ::new ((void *)&m_view) view_type(a, b);
  }
  CILKCHECK_INLINE ~reducer() {
    { cilkcheck_hidden hidden; m_view.~view_type(); }
    CILKCHECK_REDUCER(this, CILKCHECK_UNMADE, &m_view, sizeof m_view);
  }
  reducer(const reducer &) = delete;
  reducer &operator=(const reducer &) = delete;

  CILKCHECK_INLINE view_type &view() { CILKCHECK_REDUCER(this, CILKCHECK_UPDATE, &m_view, sizeof m_view); return m_view; }
  CILKCHECK_INLINE const view_type &view() const { CILKCHECK_REDUCER(this, CILKCHECK_UPDATE, &m_view, sizeof m_view); return m_view; }
  CILKCHECK_INLINE view_type &operator()() { CILKCHECK_REDUCER(this, CILKCHECK_UPDATE, &m_view, sizeof m_view); return m_view; }
  CILKCHECK_INLINE view_type &operator*() { CILKCHECK_REDUCER(this, CILKCHECK_UPDATE, &m_view, sizeof m_view); return m_view; }
  CILKCHECK_INLINE view_type *operator->() { CILKCHECK_REDUCER(this, CILKCHECK_UPDATE, &m_view, sizeof m_view); return &m_view; }

  CILKCHECK_INLINE const value_type &get_value() const {
    CILKCHECK_REDUCER(this, CILKCHECK_GET, &m_view, sizeof m_view);
    return value_of::get(m_view);
  }
  CILKCHECK_INLINE void set_value(const value_type &value) {
    CILKCHECK_REDUCER(this, CILKCHECK_PUT, &m_view, sizeof m_view);
    value_of::set(m_view, value);
  }
  CILKCHECK_INLINE void move_in(value_type &value) {
    CILKCHECK_REDUCER(this, CILKCHECK_PUT, &m_view, sizeof m_view);
    value_of::in(m_view, value);
  }
  CILKCHECK_INLINE void move_out(value_type &value) {
    CILKCHECK_REDUCER(this, CILKCHECK_GET, &m_view, sizeof m_view);
    CILKCHECK_REDUCER(this, CILKCHECK_PUT, &m_view, sizeof m_view);
    value_of::out(m_view, value);
  }
};
}
#endif
#endif
