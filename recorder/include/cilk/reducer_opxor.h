/* Reducers of Cilk Plus: bitwise exclusive or. */
#ifndef CILKCHECK_CILK_REDUCER_OPXOR_H
#define CILKCHECK_CILK_REDUCER_OPXOR_H
#include <cilk/reducer.h>

#define CILK_C_REDUCER_OPXOR_TYPE(type) CILK_C_DECLARE_REDUCER(CILKCHECK_C_TYPE(type))
#define CILK_C_REDUCER_OPXOR(name, type, value) CILK_C_REDUCER_OPXOR_TYPE(type) name = { value }

#ifdef __cplusplus
namespace cilk {
template <class T> class op_xor_view : public scalar_view<T> {
public:
  /* What *r ^ x is, which may be assigned to *r. */
  struct rhs { T value; };
  CILKCHECK_INLINE op_xor_view() : scalar_view<T>(T()) {}
  CILKCHECK_INLINE explicit op_xor_view(const T &v) : scalar_view<T>(v) {}
  template <class X> CILKCHECK_INLINE op_xor_view &operator^=(const X &x) { this->m_value ^= x; return *this; }
  template <class X> friend CILKCHECK_INLINE rhs operator^(const op_xor_view &view, const X &x) { return rhs{view.m_value ^ x}; }
  template <class X> friend CILKCHECK_INLINE rhs operator^(const rhs &left, const X &x) { return rhs{left.value ^ x}; }
  CILKCHECK_INLINE op_xor_view &operator=(const rhs &x) { this->m_value = x.value; return *this; }
  void reduce(op_xor_view *right) { this->m_value ^= right->m_value; }
};
template <class T, bool Align = false> struct op_xor : monoid_with_view<op_xor_view<T>> {};

/* The older name, whose operators are the reducer's own. */
template <class T> class reducer_opxor : public reducer<op_xor<T>> {
  typedef reducer<op_xor<T>> base;
public:
  CILKCHECK_INLINE reducer_opxor() {}
  CILKCHECK_INLINE explicit reducer_opxor(const T &v) : base(v) {}
  template <class X> CILKCHECK_INLINE reducer_opxor &operator^=(const X &x) { this->view() ^= x; return *this; }
  template <class X> friend CILKCHECK_INLINE typename op_xor_view<T>::rhs operator^(reducer_opxor &r, const X &x) { return r.view() ^ x; }
  CILKCHECK_INLINE reducer_opxor &operator=(const typename op_xor_view<T>::rhs &x) { this->view() = x; return *this; }
  CILKCHECK_INLINE reducer_opxor &operator*() { return *this; }
  CILKCHECK_INLINE reducer_opxor *operator->() { return this; }
};
}
#endif
#endif
