/* The functions of libstdc++ behind the exceptions of <stdexcept>, std::exception_ptr, std::random_device, and the guards of functions'
   static objects. See libc.h. Throwing and catching themselves touch nothing that two strands share: an exception is a block of its own. */
#include "libc.h"
#include <string.h>

struct string { char *data; size_t length; };
enum { ERROR_BYTES = 16 };                       /* a virtual table and the text, which is counted by atomics and constant */

/* ---- <stdexcept> ---- */

#define MAKES_ERROR(name, parameters, arguments, reads)   \
  extern void name parameters __attribute__((weak));      \
  WRAPPER_OF_ERROR(name, parameters, reads, name arguments)
#define WRAPPER_OF_ERROR(name, parameters, reads, call)   \
  void TELLS(name) parameters;                            \
  __attribute__((weak)) void TELLS(name) parameters {     \
    reads;                                                \
    WRITE(self, ERROR_BYTES);                             \
    call;                                                 \
  }
#define ERROR_KIND(name)                                                                                                                  \
  MAKES_ERROR(_ZNSt##name##C1EPKc, (void *self, const char *text), (self, text), READ(text, strlen(text) + 1))                            \
  MAKES_ERROR(_ZNSt##name##C2EPKc, (void *self, const char *text), (self, text), READ(text, strlen(text) + 1))                            \
  MAKES_ERROR(_ZNSt##name##C1ERKNSt7__cxx1112basic_stringIcSt11char_traitsIcESaIcEEE, (void *self, const struct string *text), (self, text), \
              READ(text, sizeof *text); READ(text->data, text->length))                                                                   \
  MAKES_ERROR(_ZNSt##name##C2ERKNSt7__cxx1112basic_stringIcSt11char_traitsIcESaIcEEE, (void *self, const struct string *text), (self, text), \
              READ(text, sizeof *text); READ(text->data, text->length))                                                                   \
  MAKES_ERROR(_ZNSt##name##D1Ev, (void *self), (self), )                                                                                  \
  MAKES_ERROR(_ZNSt##name##D2Ev, (void *self), (self), )
ERROR_KIND(11logic_error)
ERROR_KIND(12domain_error)
ERROR_KIND(16invalid_argument)
ERROR_KIND(12length_error)
ERROR_KIND(12out_of_range)
ERROR_KIND(13runtime_error)
ERROR_KIND(11range_error)
ERROR_KIND(14overflow_error)
ERROR_KIND(15underflow_error)
#define COPIES_ERROR(name)                                                                                              \
  MAKES_ERROR(_ZNSt##name##C1ERKS_, (void *self, const void *other), (self, other), READ(other, ERROR_BYTES))           \
  MAKES_ERROR(_ZNSt##name##C2ERKS_, (void *self, const void *other), (self, other), READ(other, ERROR_BYTES))
COPIES_ERROR(11logic_error)
COPIES_ERROR(13runtime_error)

/* ---- std::exception_ptr: a pointer to a counted exception ---- */

#define POINTER_READ(name)                             \
  extern void name(void **self) __attribute__((weak)); \
  WRAPPER(void, name, void **self) {                   \
    READ(self, sizeof *self);                          \
    name(self);                                        \
  }
POINTER_READ(_ZNSt15__exception_ptr13exception_ptr9_M_addrefEv)
POINTER_READ(_ZNSt15__exception_ptr13exception_ptr10_M_releaseEv)
POINTER_READ(_ZNSt15__exception_ptr13exception_ptrD1Ev)
POINTER_READ(_ZNSt15__exception_ptr13exception_ptrD2Ev)
#define POINTER_MADE(name, parameters, arguments, reads) \
  extern void name parameters __attribute__((weak));     \
  void TELLS(name) parameters;                           \
  __attribute__((weak)) void TELLS(name) parameters {    \
    reads;                                               \
    WRITE(self, sizeof *self);                           \
    name arguments;                                      \
  }
POINTER_MADE(_ZNSt15__exception_ptr13exception_ptrC1EPv, (void **self, void *exception), (self, exception), )
POINTER_MADE(_ZNSt15__exception_ptr13exception_ptrC1ERKS0_, (void **self, void **other), (self, other), READ(other, sizeof *other))
POINTER_MADE(_ZNSt15__exception_ptr13exception_ptrC1Ev, (void **self), (self), )
POINTER_MADE(_ZSt17current_exceptionv, (void **self), (self), )
extern void *_ZNSt15__exception_ptr13exception_ptraSERKS0_(void **self, void **other) __attribute__((weak));
WRAPPER(void *, _ZNSt15__exception_ptr13exception_ptraSERKS0_, void **self, void **other) {
  READ(other, sizeof *other);
  READ(self, sizeof *self);
  WRITE(self, sizeof *self);
  return _ZNSt15__exception_ptr13exception_ptraSERKS0_(self, other);
}
extern void _ZSt17rethrow_exceptionNSt15__exception_ptr13exception_ptrE(void **self) __attribute__((weak));
WRAPPER(void, _ZSt17rethrow_exceptionNSt15__exception_ptr13exception_ptrE, void **self) {
  READ(self, sizeof *self);
  _ZSt17rethrow_exceptionNSt15__exception_ptr13exception_ptrE(self);
}

/* ---- dynamic_cast reads the object's virtual table ---- */

extern void *__dynamic_cast(const void *object, const void *from, const void *to, ptrdiff_t hint) __attribute__((weak));
WRAPPER(void *, __dynamic_cast, const void *object, const void *from, const void *to, ptrdiff_t hint) {
  READ(object, sizeof(void *));
  return __dynamic_cast(object, from, to, hint);
}

/* ---- std::random_device: one object is not for two threads at once ---- */

extern void _ZNSt13random_device7_M_initERKNSt7__cxx1112basic_stringIcSt11char_traitsIcESaIcEEE(void **self, const struct string *source) __attribute__((weak));
WRAPPER(void, _ZNSt13random_device7_M_initERKNSt7__cxx1112basic_stringIcSt11char_traitsIcESaIcEEE, void **self, const struct string *source) {
  READ(source, sizeof *source);
  READ(source->data, source->length);
  WRITE(self, sizeof *self);
  _ZNSt13random_device7_M_initERKNSt7__cxx1112basic_stringIcSt11char_traitsIcESaIcEEE(self, source);
}
extern void _ZNSt13random_device7_M_finiEv(void **self) __attribute__((weak));
WRAPPER(void, _ZNSt13random_device7_M_finiEv, void **self) {
  WRITE(self, sizeof *self);
  _ZNSt13random_device7_M_finiEv(self);
}
extern unsigned _ZNSt13random_device9_M_getvalEv(void **self) __attribute__((weak));
WRAPPER(unsigned, _ZNSt13random_device9_M_getvalEv, void **self) {
  WRITE(self, sizeof *self);
  return _ZNSt13random_device9_M_getvalEv(self);
}

/* ---- guards of functions' static objects ---- */

/* Whichever strand comes first makes the object, and every other one waits for it. In the serial run that is one certain strand, but what
   it does under the guard comes before what any strand does behind it. So these accesses are not looked at, and the traces say so. */
extern int __cxa_guard_acquire(long *guard) __attribute__((weak));
extern void __cxa_guard_release(long *guard) __attribute__((weak));
extern void __cxa_guard_abort(long *guard) __attribute__((weak));

WRAPPER(int, __cxa_guard_acquire, long *guard) {
  int is_first = __cxa_guard_acquire(guard);
  if (!is_first) return 0;
  if (recording) note_unseen("accesses while a function's static object is made are left out: its guard orders them before its uses");
  hide_accesses(true);
  return is_first;
}
WRAPPER(void, __cxa_guard_release, long *guard) {
  hide_accesses(false);
  __cxa_guard_release(guard);
}
WRAPPER(void, __cxa_guard_abort, long *guard) {
  hide_accesses(false);
  __cxa_guard_abort(guard);
}
