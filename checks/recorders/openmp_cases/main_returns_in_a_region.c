// `main` returns while another thread is in a region: what was recorded is written, and the program ends as it would.
// says: the program ended inside the region
// text: # remark: the program ended inside the region: work and span too low
// file: out.tasks
// expect: work >= 3600000
#include <pthread.h>

#include "spend.h"

static volatile int done;

static void *many_tasks(void *nothing) {
#pragma omp parallel num_threads(2)
#pragma omp single
    for (int i = 0; i < 5000; i++) {
#pragma omp task
        {
            spend(1);
            done++;
        }
    }
    return nothing;
}

int main(void) {
    pthread_t thread;
    pthread_create(&thread, 0, many_tasks, 0);
    while (done < 10) spend(1);
    return 0;
}
