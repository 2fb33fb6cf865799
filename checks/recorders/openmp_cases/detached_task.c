// A detached task is over where its event is fulfilled; the text says that it ends where its code does.
// text: # remark: detach, written as complete where the code ends, 1 time at detached_task.c:\d+: span too low
#include <omp.h>

#include "spend.h"

int main(void) {
    omp_event_handle_t event;
#pragma omp parallel
#pragma omp single
    {
#pragma omp task detach(event)
        spend(1);
        spend(5);
        omp_fulfill_event(event);
    }
    return 0;
}
