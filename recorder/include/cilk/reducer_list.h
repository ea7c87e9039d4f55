/* Reducers of Cilk Plus: lists that are appended to or prepended to. */
#ifndef CILKCHECK_CILK_REDUCER_LIST_H
#define CILKCHECK_CILK_REDUCER_LIST_H
#include <cilk/reducer.h>
#ifdef __cplusplus
#include <list>
namespace cilk {
/* What is put in is copied where its reads are seen; the list's own work is not looked at. */
template <class T, class Allocator = std::allocator<T>> class cilkcheck_list_view {
protected:
  std::list<T, Allocator> m_list;
public:
  typedef std::list<T, Allocator> value_type;
  CILKCHECK_INLINE cilkcheck_list_view() {}
  CILKCHECK_INLINE explicit cilkcheck_list_view(const value_type &v) : m_list(v) {}
  CILKCHECK_INLINE const value_type &view_get_value() const { return m_list; }
  CILKCHECK_INLINE void view_set_value(const value_type &v) { m_list = v; }
  CILKCHECK_INLINE void view_move_in(value_type &v) { m_list.swap(v); v.clear(); }
  CILKCHECK_INLINE void view_move_out(value_type &v) { v.swap(m_list); m_list.clear(); }
};
template <class T, class Allocator = std::allocator<T>> class op_list_append_view : public cilkcheck_list_view<T, Allocator> {
  typedef cilkcheck_list_view<T, Allocator> base;
public:
  typedef typename base::value_type value_type;
  CILKCHECK_INLINE op_list_append_view() {}
  CILKCHECK_INLINE explicit op_list_append_view(const value_type &v) : base(v) {}
  CILKCHECK_INLINE void push_back(const T &x) { T copy(x); cilkcheck_hidden hidden; this->m_list.push_back(std::move(copy)); }
  template <class... A> CILKCHECK_INLINE void emplace_back(A &&...a) { push_back(T(std::forward<A>(a)...)); }
  template <class It> CILKCHECK_INLINE void insert_back(It first, It last) { for (; first != last; ++first) push_back(*first); }
  CILKCHECK_INLINE void append(const value_type &other) { insert_back(other.begin(), other.end()); }
  void reduce(op_list_append_view *right) { this->m_list.splice(this->m_list.end(), right->m_list); }
};
template <class T, class Allocator = std::allocator<T>> class op_list_prepend_view : public cilkcheck_list_view<T, Allocator> {
  typedef cilkcheck_list_view<T, Allocator> base;
public:
  typedef typename base::value_type value_type;
  CILKCHECK_INLINE op_list_prepend_view() {}
  CILKCHECK_INLINE explicit op_list_prepend_view(const value_type &v) : base(v) {}
  CILKCHECK_INLINE void push_front(const T &x) { T copy(x); cilkcheck_hidden hidden; this->m_list.push_front(std::move(copy)); }
  template <class... A> CILKCHECK_INLINE void emplace_front(A &&...a) { push_front(T(std::forward<A>(a)...)); }
  template <class It> CILKCHECK_INLINE void insert_front(It first, It last) { while (first != last) push_front(*--last); }
  CILKCHECK_INLINE void prepend(const value_type &other) { insert_front(other.begin(), other.end()); }
  void reduce(op_list_prepend_view *right) { this->m_list.splice(this->m_list.begin(), right->m_list); }
};
template <class T, class Allocator = std::allocator<T>, bool Align = false> struct op_list_append : monoid_with_view<op_list_append_view<T, Allocator>> {};
template <class T, class Allocator = std::allocator<T>, bool Align = false> struct op_list_prepend : monoid_with_view<op_list_prepend_view<T, Allocator>> {};

/* The older names, whose operations are the reducer's own. */
template <class T, class Allocator = std::allocator<T>> class reducer_list_append : public reducer<op_list_append<T, Allocator>> {
  typedef reducer<op_list_append<T, Allocator>> base;
public:
  CILKCHECK_INLINE reducer_list_append() {}
  CILKCHECK_INLINE explicit reducer_list_append(const std::list<T, Allocator> &v) : base(v) {}
  CILKCHECK_INLINE void push_back(const T &x) { this->view().push_back(x); }
  CILKCHECK_INLINE void append(const T &x) { this->view().push_back(x); }
  CILKCHECK_INLINE reducer_list_append &operator*() { return *this; }
  CILKCHECK_INLINE reducer_list_append *operator->() { return this; }
};
template <class T, class Allocator = std::allocator<T>> class reducer_list_prepend : public reducer<op_list_prepend<T, Allocator>> {
  typedef reducer<op_list_prepend<T, Allocator>> base;
public:
  CILKCHECK_INLINE reducer_list_prepend() {}
  CILKCHECK_INLINE explicit reducer_list_prepend(const std::list<T, Allocator> &v) : base(v) {}
  CILKCHECK_INLINE void push_front(const T &x) { this->view().push_front(x); }
  CILKCHECK_INLINE void prepend(const T &x) { this->view().push_front(x); }
  CILKCHECK_INLINE reducer_list_prepend &operator*() { return *this; }
  CILKCHECK_INLINE reducer_list_prepend *operator->() { return this; }
};
}
#endif
#endif
