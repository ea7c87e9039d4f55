/* Refuses growths of the program that it is loaded into, for .ci/memory.

   Each call of malloc and realloc that asks for more than there is, and each start of a thread, is a growth. REFUSE=N refuses the N-th
   alone, REFUSE_FROM=N that and all behind it. GROWTHS names a file of eight bytes, in which they are counted. */
#define _GNU_SOURCE
#include <dlfcn.h>
#include <errno.h>
#include <fcntl.h>
#include <malloc.h>
#include <pthread.h>
#include <stdatomic.h>
#include <stdlib.h>
#include <sys/mman.h>
#include <unistd.h>

extern void *__libc_malloc(size_t size);
extern void *__libc_realloc(void *old, size_t size);

static _Atomic unsigned long alone, *growths;
static unsigned long refused, refused_from;

static unsigned long number_in(const char *name) {
    const char *text = getenv(name);
    return text ? strtoul(text, NULL, 10) : 0;
}

__attribute__((constructor)) static void begin(void) {
    const char *name = getenv("GROWTHS");
    int file = name ? open(name, O_RDWR) : -1;
    void *shared = file < 0 ? MAP_FAILED : mmap(NULL, sizeof alone, PROT_READ | PROT_WRITE, MAP_SHARED, file, 0);
    refused = number_in("REFUSE");
    refused_from = number_in("REFUSE_FROM");
    growths = shared == MAP_FAILED ? &alone : shared;
}

static int is_refused(void) {
    if (!growths)
        return 0;
    unsigned long number = atomic_fetch_add(growths, 1) + 1;
    return number == refused || (refused_from && number >= refused_from);
}

void *malloc(size_t size) {
    if (is_refused()) {
        errno = ENOMEM;
        return NULL;
    }
    return __libc_malloc(size);
}

void *realloc(void *old, size_t size) {
    if ((!old || malloc_usable_size(old) < size) && is_refused()) {
        errno = ENOMEM;
        return NULL;
    }
    return __libc_realloc(old, size);
}

int pthread_create(pthread_t *thread, const pthread_attr_t *how, void *(*start)(void *), void *argument) {
    int (*create)(pthread_t *, const pthread_attr_t *, void *(*)(void *), void *) = dlsym(RTLD_NEXT, "pthread_create");
    return is_refused() ? EAGAIN : create(thread, how, start, argument);
}
