/* Reducers of Cilk Plus: output to a stream, in serial order. */
#ifndef CILKCHECK_CILK_REDUCER_OSTREAM_H
#define CILKCHECK_CILK_REDUCER_OSTREAM_H
#include <cilk/reducer.h>
#ifdef __cplusplus
#include <ostream>
#include <sstream>
namespace cilk {
/* What is printed is read by the strand, into a text of its own; the stream's own work is not looked at. */
template <class Char, class Traits = std::char_traits<Char>> class op_basic_ostream_view {
public:
  typedef std::basic_ostream<Char, Traits> value_type;
private:
  value_type &m_stream;
public:
  CILKCHECK_INLINE explicit op_basic_ostream_view(const value_type &stream) : m_stream(const_cast<value_type &>(stream)) {}
  template <class A> CILKCHECK_INLINE op_basic_ostream_view &operator<<(const A &a) {
    std::basic_ostringstream<Char, Traits> text;
    { cilkcheck_hidden hidden; text.copyfmt(m_stream); }
    text << a;
    cilkcheck_hidden hidden;
    m_stream.width(0);
    m_stream << text.str();
    m_stream.copyfmt(text);
    return *this;
  }
  CILKCHECK_INLINE op_basic_ostream_view &operator<<(value_type &(*manipulator)(value_type &)) {
    cilkcheck_hidden hidden;
    manipulator(m_stream);
    return *this;
  }
  CILKCHECK_INLINE op_basic_ostream_view &operator<<(std::basic_ios<Char, Traits> &(*manipulator)(std::basic_ios<Char, Traits> &)) {
    cilkcheck_hidden hidden;
    manipulator(m_stream);
    return *this;
  }
  CILKCHECK_INLINE op_basic_ostream_view &operator<<(std::ios_base &(*manipulator)(std::ios_base &)) {
    cilkcheck_hidden hidden;
    manipulator(m_stream);
    return *this;
  }
  CILKCHECK_INLINE const value_type &view_get_value() const { return m_stream; }
  void reduce(op_basic_ostream_view *) {}
};
template <class Char, class Traits = std::char_traits<Char>, bool Align = false> struct op_basic_ostream : monoid_with_view<op_basic_ostream_view<Char, Traits>> {};
typedef op_basic_ostream<char> op_ostream;
typedef op_basic_ostream<wchar_t> op_wostream;

/* The older names, whose operations are the reducer's own. */
template <class Char, class Traits = std::char_traits<Char>> class reducer_basic_ostream : public reducer<op_basic_ostream<Char, Traits>> {
  typedef reducer<op_basic_ostream<Char, Traits>> base;
  typedef std::basic_ostream<Char, Traits> stream;
public:
  CILKCHECK_INLINE explicit reducer_basic_ostream(const stream &to) : base(to) {}
  template <class A> CILKCHECK_INLINE reducer_basic_ostream &operator<<(const A &a) { this->view() << a; return *this; }
  CILKCHECK_INLINE reducer_basic_ostream &operator<<(stream &(*manipulator)(stream &)) { this->view() << manipulator; return *this; }
  CILKCHECK_INLINE reducer_basic_ostream &operator<<(std::basic_ios<Char, Traits> &(*manipulator)(std::basic_ios<Char, Traits> &)) { this->view() << manipulator; return *this; }
  CILKCHECK_INLINE reducer_basic_ostream &operator<<(std::ios_base &(*manipulator)(std::ios_base &)) { this->view() << manipulator; return *this; }
  CILKCHECK_INLINE stream &get_reference() { return const_cast<stream &>(this->get_value()); }
  CILKCHECK_INLINE reducer_basic_ostream &operator*() { return *this; }
  CILKCHECK_INLINE reducer_basic_ostream *operator->() { return this; }
};
typedef reducer_basic_ostream<char> reducer_ostream;
typedef reducer_basic_ostream<wchar_t> reducer_wostream;
}
#endif
#endif
