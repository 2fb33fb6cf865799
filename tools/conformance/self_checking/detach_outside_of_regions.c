// Outside of any region a task with detach does not hold up its creator, which fulfils the event.
// openmp: 12.9 initial task, 12.5.2 detach clause, 18.11.1 omp_fulfill_event
#include "expect.h"

int main(void) {
  for (int round = 0; round < 20; round++) {
    omp_event_handle_t event = (omp_event_handle_t)0;
    long ended = 0;
#pragma omp task detach(event) shared(ended)
    count(&ended);
    omp_fulfill_event(event);
#pragma omp taskwait
    expect("tasks that have ended behind taskwait", ended, 1);
  }
  return wrong;
}
