// A task with detach and without code has an event, and taskwait waits for that.
// openmp: 12.5.2 detach clause, 15.5 taskwait construct
#include "expect.h"

int main(void) {
  for (int round = 0; round < 20; round++) {
    omp_event_handle_t event = (omp_event_handle_t)0;
    long fulfilled = 0;
#pragma omp parallel
#pragma omp single
    {
#pragma omp task detach(event)
      {
      }
      expect_so("the variable of detach has an event", event != (omp_event_handle_t)0);
#pragma omp task shared(event, fulfilled)
      {
        linger();
        set(&fulfilled);
        if (event) omp_fulfill_event(event);
      }
#pragma omp taskwait
      expect_so("the event was fulfilled before taskwait ended", now(&fulfilled));
    }
  }
  return wrong;
}
