// A thread that is cancelled in a call of the system is unwound through the recorder's frames, by the process's unwinder.
// preload: recorder
// text: task \{
#include <pthread.h>
#include <unistd.h>

#include "spend.h"

static int cleaned;

static void clean(void *nothing) {
    (void)nothing;
    cleaned++;
}

static void *sleeps(void *nothing) {
    pthread_cleanup_push(clean, 0);
    sleep(100);
    pthread_cleanup_pop(0);
    return nothing;
}

int main(void) {
    pthread_t thread;
    void *left;
#pragma omp parallel
#pragma omp single
#pragma omp task
    spend(1);
    pthread_create(&thread, 0, sleeps, 0);
    pthread_cancel(thread);
    pthread_join(thread, &left);
    return left == PTHREAD_CANCELED && cleaned <= 1 ? 0 : 1;
}
