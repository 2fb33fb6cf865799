#define _GNU_SOURCE
#include "watch.h"
#include "interrupts.h"
#include <dirent.h>
#include <pthread.h>
#include <stdint.h>
#include <stdio.h>
#include <stdlib.h>
#include <string.h>
#include <time.h>
#include <unistd.h>

enum { LONGEST = 10 };    /* times as long as nothing may happen */
enum { PARTS = 10 };      /* of a second: all count where threads sleep or run, one where others have the processors */
static const unsigned long long MOST_MEMORY = 2ull << 30;
static const int64_t HALF_A_SECOND = 500000000;
enum { LOOKS = 3, SOONER = 3 }; /* that all threads sleep through, in one of so many parts of the time, are enough */

void next_run(struct watch *watch) {
    atomic_fetch_add(&watch->run, 1);
    atomic_store(&watch->at_work, true);
}

void end_run(struct watch *watch) {
    atomic_store(&watch->at_work, false);
}

/* The letter that tells what a thread of this process does; `S` where it sleeps. */
static char state_of(const char *thread) {
    char path[64], text[512];
    snprintf(path, sizeof path, "/proc/self/task/%.20s/stat", thread);
    FILE *file = fopen(path, "r");
    if (!file) return 'S'; /* it has ended */
    size_t length = fread(text, 1, sizeof text - 1, file);
    fclose(file);
    text[length] = 0;
    const char *name_end = strrchr(text, ')');
    return name_end && name_end[1] ? name_end[2] : 'R';
}

/* Whether each thread but this one sleeps. */
static bool all_sleep(void) {
    DIR *threads = opendir("/proc/self/task");
    if (!threads) return false;
    bool all = true;
    for (struct dirent *entry; all && (entry = readdir(threads));)
        if (entry->d_name[0] != '.' && atoi(entry->d_name) != gettid()) all = state_of(entry->d_name) == 'S';
    closedir(threads);
    return all;
}

/* In nanoseconds, of all threads. */
static int64_t processor_time(void) {
    struct timespec time = {0};
    clock_gettime(CLOCK_PROCESS_CPUTIME_ID, &time);
    return time.tv_sec * INT64_C(1000000000) + time.tv_nsec;
}

/* In bytes, as the kernel counts it; 0 where it does not tell. */
static unsigned long long memory(void) {
    unsigned long long all, resident = 0;
    FILE *file = fopen("/proc/self/statm", "r");
    if (!file) return 0;
    if (fscanf(file, "%llu %llu", &all, &resident) < 2) resident = 0;
    fclose(file);
    return resident * (unsigned long long)sysconf(_SC_PAGESIZE);
}

static void look_whether_it_runs_away(const struct watch *watch) {
    if (begins_endlessly(watch->counts)) watch->runs_away("runaway: a segment begins again and again");
    if (memory() > MOST_MEMORY) watch->runs_away("runaway: more than two gigabytes of memory");
}

static void *watching(void *handed) {
    struct watch *watch = handed;
    unsigned run = 0, happened = 0, quiet = 0, age = 0;
    bool asleep = true;
    int64_t took = 0;
    for (;; age++) {
        nanosleep(&(struct timespec){1, 0}, NULL);
        int64_t took_before = took;
        took = processor_time();
        unsigned run_now = atomic_load(&watch->run), happened_now = sum_of_counts(watch->counts);
        bool at_work = atomic_load(&watch->at_work);
        if (run_now != run || !at_work) age = 0;
        if (at_work) look_whether_it_runs_away(watch);
        if (run_now != run || happened_now != happened || !at_work) {
            run = run_now;
            happened = happened_now;
            quiet = 0;
            asleep = true;
            rest_from_interrupts(false);
            continue;
        }
        rest_from_interrupts(true);
        bool all = all_sleep();
        asleep = all && asleep;
        quiet += all || took - took_before >= HALF_A_SECOND ? PARTS : 1;
        bool surely = asleep && quiet >= LOOKS * PARTS && quiet * SOONER >= watch->seconds * PARTS;
        if (surely || quiet >= watch->seconds * PARTS || age >= LONGEST * watch->seconds) watch->hangs(asleep);
    }
    return NULL;
}

bool start_watch(struct watch *watch) {
    pthread_t thread;
    return !pthread_create(&thread, NULL, watching, watch) && !pthread_detach(thread);
}
