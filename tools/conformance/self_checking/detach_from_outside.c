// A thread outside of the team fulfils the event of a detached task, behind which a dependent task goes on.
// openmp: 12.5.2 detach clause, 18.11.1 omp_fulfill_event
#include <pthread.h>

#include "expect.h"

static omp_event_handle_t handed_over;
static long created, fulfilled;

static void *outside(void *unused) {
  await(&created);
  linger();
  set(&fulfilled);
  omp_fulfill_event(handed_over);
  return unused;
}

static void detached_then_dependent(void) {
  omp_event_handle_t event = (omp_event_handle_t)0;
  int item = 0;
  (void)item;
#pragma omp task detach(event) depend(out : item)
  linger();
  handed_over = event;
  set(&created);
#pragma omp task depend(in : item)
  expect_so("the event was fulfilled before the dependent task", now(&fulfilled));
}

int main(void) {
  for (int round = 0; round < 10; round++) {
    pthread_t thread;
    created = fulfilled = 0;
    if (pthread_create(&thread, NULL, outside, NULL)) return 0;
#pragma omp parallel
#pragma omp single
    detached_then_dependent();
    expect_so("the event was fulfilled before the region's end", fulfilled);
    pthread_join(thread, NULL);
  }
  return wrong;
}
