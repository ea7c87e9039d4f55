/* What a recording cannot follow, since the serial run of one thread is not all that happens: threads, jumps out of functions, copies
   of the process, handlers of signals, locks. Each is refused where it is called. And what else belongs to a process: its end, and sets
   of signals. */
#define _GNU_SOURCE
#include "libc.h"
#include <signal.h>
#include <stdlib.h>
#include <sys/single_threaded.h>
#include <unistd.h>

/* The definitions take no arguments: on the architectures that the recorder knows a function may leave those that it is given. */
#define REFUSED(name, why)                                  \
  _Noreturn void TELLS(name)(void);                         \
  __attribute__((weak)) _Noreturn void TELLS(name)(void) {  \
    refuse(PLACE, #name ": " why);                          \
  }
#define THREADS "threads beside those of Cilk or OpenMP are not recorded"
#define JUMPS "a jump out of functions leaves their spawns without a sync"
#define PROCESSES "a copy of the process, or another program in it, is not recorded"
#define LOCKS "what a lock orders is not known from spawns and syncs"
#define CONTEXTS "another stack's functions are not recorded"

REFUSED(pthread_create, THREADS)
REFUSED(thrd_create, THREADS)
REFUSED(clone, THREADS)
REFUSED(_ZNSt6thread15_M_start_threadESt10unique_ptrINS_6_StateESt14default_deleteIS1_EEPFvvE, THREADS)

/* A library that was not compiled by the wrapper comes here. */
_Noreturn void pthread_create(void);
__attribute__((weak)) _Noreturn void pthread_create(void) { refuse(0, "pthread_create: " THREADS); }

REFUSED(longjmp, JUMPS)
REFUSED(_longjmp, JUMPS)
REFUSED(siglongjmp, JUMPS)
REFUSED(__longjmp_chk, JUMPS)

REFUSED(fork, PROCESSES)
REFUSED(_Fork, PROCESSES)
REFUSED(vfork, PROCESSES)
REFUSED(daemon, PROCESSES)
REFUSED(execl, PROCESSES)
REFUSED(execle, PROCESSES)
REFUSED(execlp, PROCESSES)
REFUSED(execv, PROCESSES)
REFUSED(execve, PROCESSES)
REFUSED(execveat, PROCESSES)
REFUSED(execvp, PROCESSES)
REFUSED(execvpe, PROCESSES)
REFUSED(fexecve, PROCESSES)

REFUSED(makecontext, CONTEXTS)
REFUSED(swapcontext, CONTEXTS)
REFUSED(setcontext, CONTEXTS)

REFUSED(pthread_mutex_lock, LOCKS)
REFUSED(pthread_mutex_trylock, LOCKS)
REFUSED(pthread_mutex_timedlock, LOCKS)
REFUSED(pthread_mutex_clocklock, LOCKS)
REFUSED(pthread_spin_lock, LOCKS)
REFUSED(pthread_spin_trylock, LOCKS)
REFUSED(pthread_rwlock_rdlock, LOCKS)
REFUSED(pthread_rwlock_tryrdlock, LOCKS)
REFUSED(pthread_rwlock_wrlock, LOCKS)
REFUSED(pthread_rwlock_trywrlock, LOCKS)
REFUSED(pthread_cond_wait, LOCKS)
REFUSED(pthread_cond_timedwait, LOCKS)
REFUSED(pthread_barrier_wait, LOCKS)
REFUSED(pthread_once, LOCKS)
REFUSED(sem_wait, LOCKS)
REFUSED(sem_trywait, LOCKS)
REFUSED(mtx_lock, LOCKS)
REFUSED(mtx_trylock, LOCKS)
REFUSED(mtx_timedlock, LOCKS)
REFUSED(cnd_wait, LOCKS)
REFUSED(call_once, LOCKS)

/* A signal may be ignored or left to the system, but a handler of the program's runs between any two of its accesses. */
static bool is_handler(sighandler_t handler) { return handler != SIG_IGN && handler != SIG_DFL && handler != SIG_ERR; }
#define HANDLER "a handler of a signal runs between any two accesses, and is not recorded"
#define HANDLES(name)                                                                     \
  WRAPPER(sighandler_t, name, int number, sighandler_t handler) {                         \
    if (is_handler(handler)) refuse(PLACE, #name ": " HANDLER);                           \
    return signal(number, handler);                                                       \
  }
HANDLES(signal)
HANDLES(bsd_signal)
HANDLES(__sysv_signal)
HANDLES(ssignal)
WRAPPER(int, sigaction, int number, const struct sigaction *action, struct sigaction *before) {
  if (action && (action->sa_flags & SA_SIGINFO || is_handler(action->sa_handler))) refuse(PLACE, "sigaction: " HANDLER);
  if (action) READ(action, sizeof *action);
  int result = sigaction(number, action, before);
  if (!result) WRITE_IF(before);
  return result;
}

/* ---- ends of the program without its destructors, in which the traces are written ---- */

_Noreturn void TELLS(_exit)(int status);
__attribute__((weak)) _Noreturn void TELLS(_exit)(int status) {
  finish_recording();
  _exit(status);
}
_Noreturn void TELLS(_Exit)(int status);
__attribute__((weak)) _Noreturn void TELLS(_Exit)(int status) {
  finish_recording();
  _exit(status);
}
/* The first handler to be registered is the last to be called. */
__attribute__((constructor(102))) static void finish_at_quick_exit(void) { at_quick_exit(finish_recording); }

/* ---- sets of signals ---- */

WRAPPER(int, sigemptyset, sigset_t *set) {
  WRITE(set, sizeof *set);
  return sigemptyset(set);
}
WRAPPER(int, sigfillset, sigset_t *set) {
  WRITE(set, sizeof *set);
  return sigfillset(set);
}
WRAPPER(int, sigaddset, sigset_t *set, int number) {
  READ(set, sizeof *set);
  WRITE(set, sizeof *set);
  return sigaddset(set, number);
}
WRAPPER(int, sigdelset, sigset_t *set, int number) {
  READ(set, sizeof *set);
  WRITE(set, sizeof *set);
  return sigdelset(set, number);
}
WRAPPER(int, sigismember, const sigset_t *set, int number) {
  READ(set, sizeof *set);
  return sigismember(set, number);
}
WRAPPER(int, sigprocmask, int how, const sigset_t *set, sigset_t *before) {
  if (set) READ(set, sizeof *set);
  WRITE_IF(before);
  return sigprocmask(how, set, before);
}

/* The program will run by several workers: libstdc++ counts references by atomics where this is false, else plainly. */
__attribute__((constructor(101))) static void expect_several_threads(void) { __libc_single_threaded = 0; }
