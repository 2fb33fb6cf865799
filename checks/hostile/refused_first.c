/* Stands before the system's malloc, realloc and pthread_create, changes nothing, and counts which allocations are the
   first that is refused in some turn of a test of crates/refused_growths. The start of a thread counts as an
   allocation. The test tells what it does by asking for LONG_MAX bytes, or for 1, 2 or 3 fewer. At the end standard
   error gets a line with the number of allocations that were the first, of how many, and the numbers of the others,
   each with its kind and size. */
#define _GNU_SOURCE
#include <dlfcn.h>
#include <errno.h>
#include <limits.h>
#include <pthread.h>
#include <stdio.h>
#include <stdlib.h>

enum { MOST = 20000, TURN_BEGINS = 0, TAKING = 1, TAKEN = 2, TURN_ENDS = 3 };

static struct allocation {
    char kind, was_first;
    size_t size;
} allocations[MOST];
static int counts, number, met;

/* Whether this request only tells something. */
static int is_told(size_t size) {
    if (size > LONG_MAX || LONG_MAX - size > TURN_ENDS) return 0;
    if (LONG_MAX - size == TURN_BEGINS) number = 0;
    counts = LONG_MAX - size == TURN_BEGINS || LONG_MAX - size == TAKEN;
    return 1;
}

/* The number of this allocation in its turn; 0 where none are counted. */
static int numbered(char kind, size_t size) {
    if (!counts) return 0;
    int mine = __atomic_add_fetch(&number, 1, __ATOMIC_SEQ_CST);
    if (mine >= MOST) return 0;
    allocations[mine].kind = kind;
    allocations[mine].size = size;
    return mine;
}

static void ended(int mine, int was_refused) {
    if (mine == 0 || !counts) return;
    if (mine > met) met = mine;
    if (!was_refused) return;
    allocations[mine].was_first = 1;
    counts = 0;
}

void *malloc(size_t size) {
    static void *(*real)(size_t);
    if (!real) real = (void *(*)(size_t))dlsym(RTLD_NEXT, "malloc");
    if (is_told(size)) return NULL;
    int mine = numbered('m', size);
    void *block = real(size);
    ended(mine, !block);
    return block;
}

void *realloc(void *old, size_t size) {
    static void *(*real)(void *, size_t);
    if (!real) real = (void *(*)(void *, size_t))dlsym(RTLD_NEXT, "realloc");
    int mine = numbered('r', size);
    void *block = real(old, size);
    ended(mine, !block);
    return block;
}

int pthread_create(pthread_t *thread, const pthread_attr_t *attributes, void *(*body)(void *), void *argument) {
    typedef int creating(pthread_t *, const pthread_attr_t *, void *(*)(void *), void *);
    static creating *real;
    if (!real) real = (creating *)dlsym(RTLD_NEXT, "pthread_create");
    int mine = numbered('t', 0);
    int status = real(thread, attributes, body, argument);
    ended(mine, status != 0);
    return status;
}

void _exit(int status) {
    void (*real)(int) = (void (*)(int))dlsym(RTLD_NEXT, "_exit");
    int first = 0;
    for (int i = 1; i <= met; i++) first += allocations[i].was_first;
    fprintf(stderr, "first: %d of %d; not:", first, met);
    for (int i = 1; i <= met; i++)
        if (!allocations[i].was_first) fprintf(stderr, " %d(%c%zu)", i, allocations[i].kind, allocations[i].size);
    fprintf(stderr, "\n");
    real(status);
    abort();
}
