/* Reducers of Cilk Plus: strings that are appended to. */
#ifndef CILKCHECK_CILK_REDUCER_STRING_H
#define CILKCHECK_CILK_REDUCER_STRING_H
#include <cilk/reducer.h>
#ifdef __cplusplus
#include <string>
namespace cilk {
/* What is put in is copied where its reads are seen; the string's own work is not looked at. */
template <class Char, class Traits = std::char_traits<Char>, class Allocator = std::allocator<Char>> class op_basic_string_view {
public:
  typedef std::basic_string<Char, Traits, Allocator> value_type;
private:
  value_type m_string;
  CILKCHECK_INLINE op_basic_string_view &put(const value_type &copy) { cilkcheck_hidden hidden; m_string.append(copy); return *this; }
public:
  CILKCHECK_INLINE op_basic_string_view() {}
  CILKCHECK_INLINE explicit op_basic_string_view(const value_type &v) : m_string(v) {}
  CILKCHECK_INLINE explicit op_basic_string_view(const Char *v) : m_string(v) {}
  CILKCHECK_INLINE const value_type &view_get_value() const { return m_string; }
  CILKCHECK_INLINE void view_set_value(const value_type &v) { m_string = v; }
  CILKCHECK_INLINE void view_move_in(value_type &v) { m_string.swap(v); v.clear(); }
  CILKCHECK_INLINE void view_move_out(value_type &v) { v.swap(m_string); m_string.clear(); }
  CILKCHECK_INLINE op_basic_string_view &append(const value_type &x) { return put(value_type(x)); }
  CILKCHECK_INLINE op_basic_string_view &append(const Char *x) { return put(value_type(x)); }
  CILKCHECK_INLINE op_basic_string_view &append(const Char *x, size_t n) { return put(value_type(x, n)); }
  CILKCHECK_INLINE op_basic_string_view &append(size_t n, Char x) { return put(value_type(n, x)); }
  CILKCHECK_INLINE op_basic_string_view &append(const value_type &x, size_t at, size_t n) { return put(value_type(x, at, n)); }
  CILKCHECK_INLINE op_basic_string_view &operator+=(const value_type &x) { return put(value_type(x)); }
  CILKCHECK_INLINE op_basic_string_view &operator+=(const Char *x) { return put(value_type(x)); }
  CILKCHECK_INLINE op_basic_string_view &operator+=(Char x) { return put(value_type(1, x)); }
  CILKCHECK_INLINE void push_back(Char x) { put(value_type(1, x)); }
  void reduce(op_basic_string_view *right) { m_string.append(right->m_string); }
};
template <class Char, class Traits = std::char_traits<Char>, class Allocator = std::allocator<Char>, bool Align = false>
struct op_basic_string : monoid_with_view<op_basic_string_view<Char, Traits, Allocator>> {};
typedef op_basic_string<char> op_string;
typedef op_basic_string<wchar_t> op_wstring;

/* The older names, whose operations are the reducer's own. */
template <class Char, class Traits = std::char_traits<Char>, class Allocator = std::allocator<Char>>
class reducer_basic_string : public reducer<op_basic_string<Char, Traits, Allocator>> {
  typedef reducer<op_basic_string<Char, Traits, Allocator>> base;
public:
  CILKCHECK_INLINE reducer_basic_string() {}
  template <class A> CILKCHECK_INLINE explicit reducer_basic_string(const A &v) : base(v) {}
  template <class... A> CILKCHECK_INLINE reducer_basic_string &append(const A &...a) { this->view().append(a...); return *this; }
  template <class A> CILKCHECK_INLINE reducer_basic_string &operator+=(const A &a) { this->view() += a; return *this; }
  CILKCHECK_INLINE void push_back(Char x) { this->view().push_back(x); }
  CILKCHECK_INLINE reducer_basic_string &operator*() { return *this; }
  CILKCHECK_INLINE reducer_basic_string *operator->() { return this; }
};
typedef reducer_basic_string<char> reducer_string;
typedef reducer_basic_string<wchar_t> reducer_wstring;
}
#endif
#endif
