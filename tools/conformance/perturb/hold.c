/* Delays threads at places of the code that a seed chooses, as probabilistic concurrency testing changes priorities at
 * a few random points. A place counts from the begin of its library, so it is the same in each process.
 *
 *     PERTURB=SEED           the places that the seed chooses
 *     PERTURB=SEED:PLACES    these alone, such as 1a2b+,3c4d-: after the access before 1a2b, and before that at 3c4d
 *     PERTURB_PLACES=FILE    appends each place at which a thread is delayed, once */
#define _GNU_SOURCE
#include "hold.h"
#include <fcntl.h>
#include <link.h>
#include <stdatomic.h>
#include <stdbool.h>
#include <stdio.h>
#include <stdlib.h>
#include <string.h>
#include <sys/prctl.h>
#include <time.h>
#include <unistd.h>

enum { MOST_LISTED = 1024, SLOTS = 256, SEEN = 1 << 16, OFTEN = 8, MICROSECOND = 1000, PLAIN_RARER = 8 };
/* What a process may be delayed: so long at once, and that is filled up by a part of its time. Its threads so never all
 * sleep for longer, which would look like a hang. */
static const int64_t MOST_HELD = INT64_C(100) * 1000 * MICROSECOND;
enum { SHARE = 8 };

static struct {
    bool on, listed;
    uint64_t seed;
    unsigned one_in, longest; /* of so many places one is chosen; microseconds */
    unsigned count;
    uint32_t places[MOST_LISTED];
    int file;
    uintptr_t base, end;       /* of the library */
    _Atomic int64_t free_from; /* the time from which on all of MOST_HELD may be used */
    atomic_uint threads;
    atomic_uchar seen[SEEN];
} perturb;

static __thread __attribute__((tls_model("initial-exec"))) struct {
    uint64_t chance;
    uint16_t passes[SLOTS];
} here;

static uint64_t mixed(uint64_t x) {
    x += 0x9e3779b97f4a7c15u;
    x = (x ^ x >> 30) * 0xbf58476d1ce4e5b9u;
    x = (x ^ x >> 27) * 0x94d049bb133111ebu;
    return x ^ x >> 31;
}

static int64_t now(void) {
    struct timespec time;
    clock_gettime(CLOCK_MONOTONIC, &time);
    return time.tv_sec * INT64_C(1000000000) + time.tv_nsec;
}

/* A place and whether it is after the access, as one number. */
static uint32_t point_of(uintptr_t place, enum moment moment) {
    return (uint32_t)(place - perturb.base) << 1 | (moment == AFTER);
}

static void read_list(char *words) {
    perturb.listed = true;
    while (*words && perturb.count < MOST_LISTED) {
        uint32_t place = (uint32_t)strtoul(words, &words, 16);
        perturb.places[perturb.count++] = place << 1 | (*words == '+');
        words += strcspn(words, ",");
        words += *words == ',';
    }
}

static int find_library(struct dl_phdr_info *info, size_t size, void *handed) {
    uintptr_t place = *(uintptr_t *)handed;
    (void)size;
    for (int i = 0; i < info->dlpi_phnum; i++) {
        const ElfW(Phdr) *part = &info->dlpi_phdr[i];
        uintptr_t begin = info->dlpi_addr + part->p_vaddr;
        if (part->p_type != PT_LOAD || place < begin || place >= begin + part->p_memsz) continue;
        perturb.base = info->dlpi_addr;
        perturb.end = begin + part->p_memsz;
        return 1;
    }
    return 0;
}

__attribute__((constructor)) static void read_environment(void) {
    const char *told = getenv("PERTURB"), *file = getenv("PERTURB_PLACES");
    if (!told || !*told) return;
    char *rest;
    perturb.seed = strtoull(told, &rest, 10);
    if (*rest == ':') read_list(rest + 1);
    perturb.one_in = 4u << mixed(perturb.seed) % 5;
    perturb.longest = 32u * perturb.one_in << (mixed(perturb.seed) >> 8) % 3;
    perturb.file = file ? open(file, O_WRONLY | O_CREAT | O_APPEND | O_CLOEXEC, 0666) : -1;
    perturb.on = true;
}

void function_begins(uintptr_t inside) {
    if (perturb.on && !perturb.end) dl_iterate_phdr(find_library, &inside);
}

static bool is_chosen(uint32_t point, enum access access) {
    if (!perturb.listed) {
        unsigned one_in = access == PLAIN ? PLAIN_RARER * perturb.one_in : perturb.one_in;
        return mixed(mixed(perturb.seed) ^ point) % one_in == 0;
    }
    for (unsigned i = 0; i < perturb.count; i++)
        if (perturb.places[i] == point) return true;
    return false;
}

/* Counts the thread that is here. One alone races with nobody, and is not delayed. */
static bool has_others(void) {
    if (!here.chance) {
        here.chance = mixed(perturb.seed + ((uint64_t)atomic_fetch_add(&perturb.threads, 1) << 32));
        prctl(PR_SET_TIMERSLACK, 1);
    }
    return atomic_load_explicit(&perturb.threads, memory_order_relaxed) > 1;
}

static uint64_t next_chance(void) {
    return here.chance = mixed(here.chance);
}

/* The more often a thread has been there, the more rarely. */
static bool is_time(uint32_t point) {
    uint16_t *passes = &here.passes[point % SLOTS];
    *passes += *passes < UINT16_MAX;
    return next_chance() % *passes < OFTEN;
}

static void tell(uint32_t point) {
    if (perturb.file < 0 || atomic_exchange(&perturb.seen[mixed(point) % SEEN], 1)) return;
    char line[32];
    int length = snprintf(line, sizeof line, "%x%c\n", point >> 1, point & 1 ? '+' : '-');
    if (write(perturb.file, line, (size_t)length) < 0) perturb.file = -1;
}

/* How much of MOST_HELD is left. */
static int64_t left_at(int64_t time) {
    int64_t used = (atomic_load(&perturb.free_from) - time) / SHARE;
    return used > 0 ? MOST_HELD - used : MOST_HELD;
}

static void use(int64_t time, int64_t length) {
    int64_t from = atomic_load(&perturb.free_from);
    while (!atomic_compare_exchange_weak(&perturb.free_from, &from, (from > time ? from : time) + SHARE * length)) {}
}

static void delay(void) {
    int64_t time = now(), length = (int64_t)(next_chance() % perturb.longest) * MICROSECOND;
    if (length > left_at(time)) return;
    use(time, length);
    clock_nanosleep(CLOCK_MONOTONIC, 0, &(struct timespec){0, (long)length}, NULL);
}

void hold(uintptr_t place, enum moment moment, enum access access) {
    if (!perturb.on || place < perturb.base || place >= perturb.end || !has_others()) return;
    uint32_t point = point_of(place, moment);
    if (!is_chosen(point, access) || !is_time(point)) return;
    tell(point);
    delay();
}
