/* Reducers of Cilk Plus: the least value, with or without where it is. */
#ifndef CILKCHECK_CILK_REDUCER_MIN_H
#define CILKCHECK_CILK_REDUCER_MIN_H
#include <cilk/reducer.h>

#define CILK_C_REDUCER_MIN_TYPE(type) CILK_C_DECLARE_REDUCER(CILKCHECK_C_TYPE(type))
#define CILK_C_REDUCER_MIN(name, type, value) CILK_C_REDUCER_MIN_TYPE(type) name = { value }
#define CILK_C_REDUCER_MIN_CALC(reducer, v) \
  do { \
    __typeof__((reducer).CILKCHECK_VALUE) *cilkcheck_at = &REDUCER_VIEW(reducer), cilkcheck_v = (v); \
    if (*cilkcheck_at > cilkcheck_v) *cilkcheck_at = cilkcheck_v; \
  } while (0)
#define CILK_C_REDUCER_MIN_INDEX_VIEW(type) struct { long index; CILKCHECK_C_TYPE(type) value; }
#define CILK_C_REDUCER_MIN_INDEX_TYPE(type) CILK_C_DECLARE_REDUCER(CILK_C_REDUCER_MIN_INDEX_VIEW(type))
#define CILK_C_REDUCER_MIN_INDEX(name, type, value) CILK_C_REDUCER_MIN_INDEX_TYPE(type) name = { { 0, value } }
#define CILK_C_REDUCER_MIN_INDEX_CALC(reducer, i, v) \
  do { \
    __typeof__((reducer).CILKCHECK_VALUE) *cilkcheck_at = &REDUCER_VIEW(reducer); \
    long cilkcheck_i = (i); \
    __typeof__(cilkcheck_at->value) cilkcheck_v = (v); \
    if (cilkcheck_at->value > cilkcheck_v) { cilkcheck_at->index = cilkcheck_i; cilkcheck_at->value = cilkcheck_v; } \
  } while (0)

#ifdef __cplusplus
#include <functional>
namespace cilk {
/* Where nothing is known yet, `is_set` is false; a value that the reducer was made with is set. */
template <class T, class Compare = std::less<T>> class op_min_view {
  T m_value;
  bool m_is_set;
public:
  typedef T value_type;
  struct rhs { const T &value; };
  CILKCHECK_INLINE op_min_view() : m_value(), m_is_set(false) {}
  CILKCHECK_INLINE explicit op_min_view(const T &v) : m_value(v), m_is_set(true) {}
  CILKCHECK_INLINE op_min_view &calc_min(const T &v) {
    if (!m_is_set || (Compare()(v, m_value))) { m_value = v; m_is_set = true; }
    return *this;
  }
  CILKCHECK_INLINE op_min_view &operator=(const rhs &x) { return calc_min(x.value); }
  CILKCHECK_INLINE bool is_set() const { return m_is_set; }
  CILKCHECK_INLINE const T &view_get_value() const { return m_value; }
  CILKCHECK_INLINE void view_set_value(const T &v) { m_value = v; m_is_set = true; }
  CILKCHECK_INLINE void view_move_in(T &v) { m_value = std::move(v); m_is_set = true; }
  CILKCHECK_INLINE void view_move_out(T &v) { v = std::move(m_value); m_is_set = false; }
  void reduce(op_min_view *right) { if (right->m_is_set) calc_min(right->m_value); }
};
/* *r = cilk::min_of(*r, x) */
template <class T, class C> CILKCHECK_INLINE typename op_min_view<T, C>::rhs min_of(const op_min_view<T, C> &, const T &x) { return {x}; }
template <class T, class C> CILKCHECK_INLINE typename op_min_view<T, C>::rhs min_of(const T &x, const op_min_view<T, C> &) { return {x}; }
template <class T, class Compare = std::less<T>, bool Align = false> struct op_min : monoid_with_view<op_min_view<T, Compare>> {};

template <class Index, class T, class Compare = std::less<T>> class op_min_index_view {
public:
  typedef std::pair<Index, T> value_type;
private:
  value_type m_value;
  bool m_is_set;
public:
  CILKCHECK_INLINE op_min_index_view() : m_value(), m_is_set(false) {}
  CILKCHECK_INLINE explicit op_min_index_view(const value_type &v) : m_value(v), m_is_set(true) {}
  CILKCHECK_INLINE op_min_index_view(const Index &i, const T &v) : m_value(i, v), m_is_set(true) {}
  CILKCHECK_INLINE op_min_index_view &calc_min(const Index &i, const T &v) {
    if (!m_is_set || (Compare()(v, m_value.second))) { m_value.first = i; m_value.second = v; m_is_set = true; }
    return *this;
  }
  CILKCHECK_INLINE bool is_set() const { return m_is_set; }
  CILKCHECK_INLINE const value_type &view_get_value() const { return m_value; }
  CILKCHECK_INLINE void view_set_value(const value_type &v) { m_value = v; m_is_set = true; }
  CILKCHECK_INLINE void view_move_in(value_type &v) { m_value = std::move(v); m_is_set = true; }
  CILKCHECK_INLINE void view_move_out(value_type &v) { v = std::move(m_value); m_is_set = false; }
  void reduce(op_min_index_view *right) { if (right->m_is_set) calc_min(right->m_value.first, right->m_value.second); }
};
template <class Index, class T, class Compare = std::less<T>, bool Align = false> struct op_min_index : monoid_with_view<op_min_index_view<Index, T, Compare>> {};

/* The older names, whose operations are the reducer's own. */
template <class T, class Compare = std::less<T>> class reducer_min : public reducer<op_min<T, Compare>> {
  typedef reducer<op_min<T, Compare>> base;
public:
  CILKCHECK_INLINE reducer_min() {}
  CILKCHECK_INLINE explicit reducer_min(const T &v) : base(v) {}
  CILKCHECK_INLINE reducer_min &calc_min(const T &v) { this->view().calc_min(v); return *this; }
  CILKCHECK_INLINE bool is_set() { return this->view().is_set(); }
  CILKCHECK_INLINE reducer_min &operator=(const typename op_min_view<T, Compare>::rhs &x) { this->view() = x; return *this; }
  CILKCHECK_INLINE reducer_min &operator*() { return *this; }
  CILKCHECK_INLINE reducer_min *operator->() { return this; }
};
template <class T, class C> CILKCHECK_INLINE typename op_min_view<T, C>::rhs min_of(reducer_min<T, C> &, const T &x) { return {x}; }
template <class Index, class T, class Compare = std::less<T>> class reducer_min_index : public reducer<op_min_index<Index, T, Compare>> {
  typedef reducer<op_min_index<Index, T, Compare>> base;
public:
  CILKCHECK_INLINE reducer_min_index() {}
  CILKCHECK_INLINE reducer_min_index(const Index &i, const T &v) : base(i, v) {}
  CILKCHECK_INLINE reducer_min_index &calc_min(const Index &i, const T &v) { this->view().calc_min(i, v); return *this; }
  CILKCHECK_INLINE bool is_set() { return this->view().is_set(); }
  CILKCHECK_INLINE const T &get_reference() { return this->get_value().second; }
  CILKCHECK_INLINE const Index &get_index_reference() { return this->get_value().first; }
  CILKCHECK_INLINE reducer_min_index &operator*() { return *this; }
  CILKCHECK_INLINE reducer_min_index *operator->() { return this; }
};
}
#endif
#endif
