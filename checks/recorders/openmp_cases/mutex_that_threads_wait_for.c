// A mutex and a read-write lock of the system are told where threads wait for them, with how long they were held; one
// that is had at once is not.
// preload: recorder
// env: SPANPROF_WHOLE=1
// in out.locks: "place": "mutex_that_threads_wait_for.c:(20|21)", "kind": "mutex", "times": [1-9]\d*, "inside_ns": \d+, "waited_ns": [1-9]\d*
// in out.locks: "place": "mutex_that_threads_wait_for.c:(24|25)", "kind": "rwlock", "times": [1-9]\d*, "inside_ns": \d+, "waited_ns": [1-9]\d*
#include <pthread.h>
#include <unistd.h>

static pthread_mutex_t mutex = PTHREAD_MUTEX_INITIALIZER, alone = PTHREAD_MUTEX_INITIALIZER;
static pthread_rwlock_t rwlock = PTHREAD_RWLOCK_INITIALIZER;
static volatile int in_mutex, in_rwlock;

int main(void) {
    pthread_mutex_lock(&alone);
    pthread_mutex_unlock(&alone);
#pragma omp parallel num_threads(2)
    for (int i = 0; i < 5; i++) {
#pragma omp barrier
        pthread_mutex_lock(&mutex);
        usleep(20000);
        in_mutex++;
        pthread_mutex_unlock(&mutex);
        pthread_rwlock_wrlock(&rwlock);
        usleep(40000);
        in_rwlock++;
        pthread_rwlock_unlock(&rwlock);
    }
    return in_mutex == 10 && in_rwlock == 10 ? 0 : 1;
}
