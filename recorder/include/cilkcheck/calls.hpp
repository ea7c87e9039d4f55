/* What the rewriter writes in C++: marks, which the compiler pass (pass/spawns.cpp) turns into calls of the runtime. The rewriter puts this text,
   which no preprocessor reads, before the program's. It is C++98. */
extern "C" void __cilkcheck_mark_sync() __attribute__((nothrow));
/* The bytes of what a reference refers to, where that is a temporary of its own. */
template <class T> struct __cilkcheck_temporary { static const unsigned long bytes = 0; };
template <class T> struct __cilkcheck_temporary<T &&> { static const unsigned long bytes = sizeof(T); };
template <class T> struct __cilkcheck_temporary<T &> { static const unsigned long bytes = 0; };
/* A spawn, from before its arguments to the end of its statement, or to `left`. The pass finds the call in between by its base name. `place` is what
   the statement assigns to; a bit-field gives a copy. */
struct __cilkcheck_spawn {
  void *state;
  __cilkcheck_spawn(const char *callee, int form) __attribute__((nothrow));
  template <class T> __cilkcheck_spawn(const char *callee, int form, const T &place, unsigned long bytes = 0) __attribute__((nothrow));
  void left() __attribute__((nothrow));
  ~__cilkcheck_spawn() __attribute__((nothrow));
};
/* A block of children of its own. */
struct __cilkcheck_scope {
  __cilkcheck_scope() __attribute__((nothrow));
  ~__cilkcheck_scope() __attribute__((nothrow));
};
/* Stands before a return: the function syncs when the value is computed, and before its locals end. */
struct __cilkcheck_syncs {
  ~__cilkcheck_syncs() __attribute__((nothrow));
};
