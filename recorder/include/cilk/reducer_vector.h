/* Reducers of Cilk Plus: vectors that are appended to. */
#ifndef CILKCHECK_CILK_REDUCER_VECTOR_H
#define CILKCHECK_CILK_REDUCER_VECTOR_H
#include <cilk/reducer.h>
#ifdef __cplusplus
#include <vector>
namespace cilk {
/* What is put in is copied where its reads are seen; the vector's own work is not looked at. */
template <class T, class Allocator = std::allocator<T>> class op_vector_view {
  std::vector<T, Allocator> m_vector;
public:
  typedef std::vector<T, Allocator> value_type;
  CILKCHECK_INLINE op_vector_view() {}
  CILKCHECK_INLINE explicit op_vector_view(const value_type &v) : m_vector(v) {}
  CILKCHECK_INLINE const value_type &view_get_value() const { return m_vector; }
  CILKCHECK_INLINE void view_set_value(const value_type &v) { m_vector = v; }
  CILKCHECK_INLINE void view_move_in(value_type &v) { m_vector.swap(v); v.clear(); }
  CILKCHECK_INLINE void view_move_out(value_type &v) { v.swap(m_vector); m_vector.clear(); }
  CILKCHECK_INLINE void push_back(const T &x) { T copy(x); cilkcheck_hidden hidden; m_vector.push_back(std::move(copy)); }
  template <class... A> CILKCHECK_INLINE void emplace_back(A &&...a) { push_back(T(std::forward<A>(a)...)); }
  template <class It> CILKCHECK_INLINE void insert_back(It first, It last) { for (; first != last; ++first) push_back(*first); }
  void reduce(op_vector_view *right) { m_vector.insert(m_vector.end(), right->m_vector.begin(), right->m_vector.end()); }
};
template <class T, class Allocator = std::allocator<T>, bool Align = false> struct op_vector : monoid_with_view<op_vector_view<T, Allocator>> {};
}
#endif
#endif
