// A task that depends on a detached one runs once a thread outside of the team has fulfilled the event, and taskwait
// waits for it too.
// openmp: 12.5.2 detach clause, 18.11.1 omp_fulfill_event, 15.9.5 depend clause, 15.5 taskwait construct
#include <pthread.h>

#include "expect.h"

static omp_event_handle_t event;
static long created, fulfilled, ran;

static void *outside(void *nothing) {
  await(&created);
  linger();
  set(&fulfilled);
  omp_fulfill_event(event);
  return nothing;
}

static void create_and_wait(void) {
  int item = 0;
  omp_event_handle_t own = (omp_event_handle_t)0;
#pragma omp task detach(own) depend(out : item)
  item = 1;
  event = own;
  set(&created);
#pragma omp task depend(in : item)
  {
    expect_so("the event was fulfilled before the successor began", now(&fulfilled));
    count_late(&ran);
  }
#pragma omp taskwait
  expect("successors that have ended behind taskwait", now(&ran), 1);
}

int main(void) {
  for (int round = 0; round < 20; round++) {
    created = fulfilled = ran = 0;
    pthread_t thread;
    if (pthread_create(&thread, NULL, outside, NULL)) _exit(0);
#pragma omp parallel
#pragma omp single
    create_and_wait();
    pthread_join(thread, NULL);
  }
  return wrong;
}
