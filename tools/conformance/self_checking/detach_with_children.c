// A task with detach whose event is fulfilled early still leaves the tasks below it to its group, which waits for them.
// openmp: 12.5.2 detach clause, 15.4 taskgroup construct, 15.5 taskwait construct
#include "expect.h"

static void detached_and_children(long *below, long *fulfilled) {
  omp_event_handle_t event = (omp_event_handle_t)0;
#pragma omp task detach(event) firstprivate(below)
  for (int i = 0; i < 4; i++) {
#pragma omp task firstprivate(below)
    count_late(below);
  }
#pragma omp task firstprivate(event, fulfilled)
  {
    set(fulfilled);
    omp_fulfill_event(event);
  }
#pragma omp taskwait
  expect_so("the event was fulfilled before taskwait ended", now(fulfilled));
}

int main(void) {
  for (int round = 0; round < 20; round++) {
    long below = 0, fulfilled = 0;
#pragma omp parallel
#pragma omp single
    {
#pragma omp taskgroup
      detached_and_children(&below, &fulfilled);
      expect("tasks below the detached one behind the group", now(&below), 4);
    }
  }
  return wrong;
}
