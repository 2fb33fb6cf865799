// A task with detach below a final one is included: it has run before its creator goes on, and taskwait waits for its
// event, which another thread fulfils.
// openmp: 12.5.2 detach clause, 12.3 final clause, 15.5 taskwait construct
#include <pthread.h>

#include "expect.h"

static omp_event_handle_t handed_over;
static long created, fulfilled;

static void *outside(void *unused) {
  await(&created);
  linger();
  set(&fulfilled);
  omp_fulfill_event(handed_over);
  return unused;
}

static void of_final_task(void) {
  omp_event_handle_t event = (omp_event_handle_t)0;
  int ran = 0;
#pragma omp task detach(event) shared(ran)
  {
    ran = 1;
    handed_over = event;
    set(&created);
  }
  expect_so("the included task has run", ran);
#pragma omp taskwait
  expect_so("the event was fulfilled before taskwait ended", now(&fulfilled));
}

int main(void) {
  for (int round = 0; round < 10; round++) {
    pthread_t thread;
    created = fulfilled = 0;
    if (pthread_create(&thread, NULL, outside, NULL)) return 0;
#pragma omp parallel
#pragma omp single
#pragma omp task final(1)
    of_final_task();
    pthread_join(thread, NULL);
  }
  return wrong;
}
