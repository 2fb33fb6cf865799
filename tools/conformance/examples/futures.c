/* A pool of threads with futures, which has nothing of OpenMP, and a program that writes the logs of its runs:
 *
 *     cc -O1 -pthread -I../harness futures.c ../harness/log.c ../harness/output.c -o futures
 *     ./futures 4 20 > futures.log
 *     ../../spanprof-conformance judge futures.tasks futures.log
 *
 * on 4 threads, in 20 runs. With -DDONE_TOO_EARLY a future is done when its code begins, which is refused. */
#include "log.h"
#include <pthread.h>
#include <stdlib.h>
#include <unistd.h>

enum { OUTER = 8, MOST_EVENTS = 256, MOST_THREADS = 64 };

/* ---- the pool ---- */

struct future {
    void (*body)(unsigned first);
    unsigned first; /* its first segment */
    bool done;
    struct future *next;
};

static pthread_mutex_t lock = PTHREAD_MUTEX_INITIALIZER;
static pthread_cond_t changed = PTHREAD_COND_INITIALIZER;
static struct future *queue;
static bool closed;

/* Under the lock, which is given up while the future's code runs. */
static void run_first_or_wait(void) {
    struct future *f = queue;
    if (!f) {
        pthread_cond_wait(&changed, &lock);
        return;
    }
    queue = f->next;
#ifdef DONE_TOO_EARLY
    f->done = true;
#endif
    pthread_mutex_unlock(&lock);
    f->body(f->first);
    pthread_mutex_lock(&lock);
    f->done = true;
    pthread_cond_broadcast(&changed);
}

static void spawn(struct future *f, void (*body)(unsigned), unsigned first) {
    pthread_mutex_lock(&lock);
    *f = (struct future){body, first, false, queue};
    queue = f;
    pthread_cond_broadcast(&changed);
    pthread_mutex_unlock(&lock);
}

/* A thread that waits for a future runs others meanwhile. */
static void get(struct future *f) {
    pthread_mutex_lock(&lock);
    while (!f->done) run_first_or_wait();
    pthread_mutex_unlock(&lock);
}

/* ---- the program of futures.tasks ---- */

static struct log events;
static __thread unsigned worker;
static struct future outer[OUTER], inner[OUTER];

static void segment(unsigned number) {
    log_event(&events, START, worker, number);
    usleep(number % 7 * 20);
    log_event(&events, FINISH, worker, number);
}

static void outer_body(unsigned first) {
    struct future *mine = &inner[first / 6];
    segment(first);
    spawn(mine, segment, first + 1);
    segment(first + 2);
    get(mine);
    segment(first + 3); /* get's own segment, which nothing is done in */
    segment(first + 4);
}

static void root(void) {
    segment(0);
    for (unsigned i = 0; i < OUTER; i++) {
        spawn(&outer[i], outer_body, 6 * i + 1);
        segment(6 * i + 6);
    }
    for (unsigned i = 0; i < OUTER; i++) {
        get(&outer[i]);
        segment(2 * i + 49);
        segment(2 * i + 50);
    }
}

/* ---- its runs ---- */

static void *serve(void *number) {
    worker = *(unsigned *)number;
    pthread_mutex_lock(&lock);
    while (queue || !closed) run_first_or_wait();
    pthread_mutex_unlock(&lock);
    return NULL;
}

static void one_run(unsigned threads) {
    pthread_t thread[MOST_THREADS];
    unsigned number[MOST_THREADS];
    clear_log(&events);
    closed = false;
    for (unsigned i = 1; i < threads; i++) {
        number[i] = i;
        if (pthread_create(&thread[i], NULL, serve, &number[i])) exit(2);
    }
    root();
    pthread_mutex_lock(&lock);
    closed = true;
    pthread_cond_broadcast(&changed);
    pthread_mutex_unlock(&lock);
    for (unsigned i = 1; i < threads; i++) pthread_join(thread[i], NULL);
}

int main(int count, char **words) {
    static struct output output;
    unsigned threads = count == 3 ? (unsigned)atoi(words[1]) : 0, runs = count == 3 ? (unsigned)atoi(words[2]) : 0;
    if (!threads || threads > MOST_THREADS || !runs || !open_log(&events, MOST_EVENTS)) return 2;
    for (unsigned run = 0; run < runs; run++) {
        one_run(threads);
        say(&output, "run ");
        say_number(&output, run);
        say(&output, "\n");
        say_log(&events, &output);
        say(&output, "done\n");
    }
    write_output(&output);
    return 0;
}
