// The event of a detached task is fulfilled before the task begins, and in the task itself: it ends with its code.
// openmp: 12.5.2 detach clause, 18.11.1 omp_fulfill_event
#include "expect.h"

static long ended;

static void before_it_begins(void) {
  omp_event_handle_t event = (omp_event_handle_t)0;
  int gate = 0, item = 0;
  (void)gate, (void)item;
#pragma omp task depend(out : gate)
  linger();
#pragma omp task detach(event) depend(in : gate) depend(out : item)
  count_late(&ended);
  omp_fulfill_event(event);
#pragma omp task depend(in : item)
  expect_so("the code has ended before the dependent task", now(&ended));
#pragma omp taskwait
}

static void in_itself(void) {
  omp_event_handle_t event = (omp_event_handle_t)0;
#pragma omp task detach(event)
  {
    omp_fulfill_event(event);
    count_late(&ended);
  }
#pragma omp taskwait
  expect("codes that have ended behind taskwait", now(&ended), 2);
}

int main(void) {
  for (int round = 0; round < 20; round++) {
    ended = 0;
#pragma omp parallel
#pragma omp single
    {
      before_it_begins();
      in_itself();
    }
  }
  return wrong;
}
