/* Reducers of Cilk Plus: sums. */
#ifndef CILKCHECK_CILK_REDUCER_OPADD_H
#define CILKCHECK_CILK_REDUCER_OPADD_H
#include <cilk/reducer.h>

#define CILK_C_REDUCER_OPADD_TYPE(type) CILK_C_DECLARE_REDUCER(CILKCHECK_C_TYPE(type))
#define CILK_C_REDUCER_OPADD(name, type, value) CILK_C_REDUCER_OPADD_TYPE(type) name = { value }

#ifdef __cplusplus
namespace cilk {
template <class T> class op_add_view : public scalar_view<T> {
public:
  /* What *r + x is, which may be assigned to *r. */
  struct rhs { T value; };
  CILKCHECK_INLINE op_add_view() : scalar_view<T>(T()) {}
  CILKCHECK_INLINE explicit op_add_view(const T &v) : scalar_view<T>(v) {}
  template <class X> CILKCHECK_INLINE op_add_view &operator+=(const X &x) { this->m_value += x; return *this; }
  template <class X> CILKCHECK_INLINE op_add_view &operator-=(const X &x) { this->m_value -= x; return *this; }
  CILKCHECK_INLINE op_add_view &operator++() { ++this->m_value; return *this; }
  CILKCHECK_INLINE op_add_view &operator--() { --this->m_value; return *this; }
  CILKCHECK_INLINE void operator++(int) { ++this->m_value; }
  CILKCHECK_INLINE void operator--(int) { --this->m_value; }
  template <class X> friend CILKCHECK_INLINE rhs operator+(const op_add_view &view, const X &x) { return rhs{view.m_value + x}; }
  template <class X> friend CILKCHECK_INLINE rhs operator+(const rhs &left, const X &x) { return rhs{left.value + x}; }
  template <class X> friend CILKCHECK_INLINE rhs operator-(const op_add_view &view, const X &x) { return rhs{view.m_value - x}; }
  template <class X> friend CILKCHECK_INLINE rhs operator-(const rhs &left, const X &x) { return rhs{left.value - x}; }
  CILKCHECK_INLINE op_add_view &operator=(const rhs &x) { this->m_value = x.value; return *this; }
  void reduce(op_add_view *right) { this->m_value += right->m_value; }
};
template <class T, bool Align = false> struct op_add : monoid_with_view<op_add_view<T>> {};

/* The older name, whose operators are the reducer's own. */
template <class T> class reducer_opadd : public reducer<op_add<T>> {
  typedef reducer<op_add<T>> base;
public:
  CILKCHECK_INLINE reducer_opadd() {}
  CILKCHECK_INLINE explicit reducer_opadd(const T &v) : base(v) {}
  template <class X> CILKCHECK_INLINE reducer_opadd &operator+=(const X &x) { this->view() += x; return *this; }
  template <class X> CILKCHECK_INLINE reducer_opadd &operator-=(const X &x) { this->view() -= x; return *this; }
  CILKCHECK_INLINE reducer_opadd &operator++() { ++this->view(); return *this; }
  CILKCHECK_INLINE reducer_opadd &operator--() { --this->view(); return *this; }
  CILKCHECK_INLINE void operator++(int) { ++this->view(); }
  CILKCHECK_INLINE void operator--(int) { --this->view(); }
  template <class X> friend CILKCHECK_INLINE typename op_add_view<T>::rhs operator+(reducer_opadd &r, const X &x) { return r.view() + x; }
  CILKCHECK_INLINE reducer_opadd &operator=(const typename op_add_view<T>::rhs &x) { this->view() = x; return *this; }
  CILKCHECK_INLINE reducer_opadd &operator*() { return *this; }
  CILKCHECK_INLINE reducer_opadd *operator->() { return this; }
};
}
#endif
#endif
