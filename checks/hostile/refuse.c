/* Stands before the system's malloc, realloc and pthread_create, and refuses allocations. The start of a thread counts
   as an allocation. REFUSE is the number of the allocation that is refused, counted from 1; if REFUSE_LATER is set, all
   after it are refused too. Standard error tells of each. */
#define _GNU_SOURCE
#include <dlfcn.h>
#include <errno.h>
#include <pthread.h>
#include <stdlib.h>
#include <unistd.h>

static int refuses(void) {
    static long made = 0;
    const char *first = getenv("REFUSE");
    long number = first ? atol(first) : 0;
    long mine = __atomic_add_fetch(&made, 1, __ATOMIC_SEQ_CST);
    if (number == 0 || mine < number || (mine > number && !getenv("REFUSE_LATER"))) return 0;
    if (write(2, "refused\n", 8) != 8) abort();
    return 1;
}

void *malloc(size_t size) {
    static void *(*real)(size_t);
    if (!real) real = (void *(*)(size_t))dlsym(RTLD_NEXT, "malloc");
    if (!refuses()) return real(size);
    errno = ENOMEM;
    return NULL;
}

void *realloc(void *block, size_t size) {
    static void *(*real)(void *, size_t);
    if (!real) real = (void *(*)(void *, size_t))dlsym(RTLD_NEXT, "realloc");
    if (!refuses()) return real(block, size);
    errno = ENOMEM;
    return NULL;
}

int pthread_create(pthread_t *thread, const pthread_attr_t *attributes, void *(*body)(void *), void *argument) {
    typedef int creating(pthread_t *, const pthread_attr_t *, void *(*)(void *), void *);
    static creating *real;
    if (!real) real = (creating *)dlsym(RTLD_NEXT, "pthread_create");
    return refuses() ? EAGAIN : real(thread, attributes, body, argument);
}
