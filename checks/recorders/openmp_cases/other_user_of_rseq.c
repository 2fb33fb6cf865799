// A program with restartable sequences of its own, as memory allocators have: they work, and costs are by the wall clock.
// text: "clock": "wall"
#define _GNU_SOURCE
#include <dlfcn.h>
#include <stddef.h>
#include <stdint.h>
#include <stdlib.h>

#include "spend.h"

struct __attribute__((aligned(32))) sequence {
    uint32_t version, flags;
    uint64_t start, bytes, left;
    uint32_t no_code, signature;
    uint64_t behind;
};

static struct sequence own = {.signature = 0x53053053};

static void enter(void) {
    const ptrdiff_t *offset = dlsym(RTLD_DEFAULT, "__rseq_offset");
    if (!offset) abort();
    *(volatile uint64_t *)((char *)__builtin_thread_pointer() + *offset + 8) = (uint64_t)&own;
}

int main(void) {
    own.start = (uint64_t)&own.no_code;
    own.bytes = 1;
    own.left = (uint64_t)&own.behind;
#pragma omp parallel
#pragma omp single
    for (int i = 0; i < 4; i++) {
#pragma omp task
        {
            spend(1);
            enter();
        }
    }
    return 0;
}
