// A thread outside of the team fulfils the event of a detached task while the team waits for it at the region's end.
// openmp: 12.5.2 detach clause, 18.11.1 omp_fulfill_event, 15.3.2 implicit barriers
#include <pthread.h>

#include "expect.h"

static omp_event_handle_t handed_over;
static long created;

static void *outside(void *unused) {
  await(&created);
  usleep(20000);  // the team waits at its barrier by now
  omp_fulfill_event(handed_over);
  return unused;
}

int main(void) {
  for (int round = 0; round < 3; round++) {
    pthread_t thread;
    created = 0;
    if (pthread_create(&thread, NULL, outside, NULL)) return 0;
#pragma omp parallel
#pragma omp single
    {
      omp_event_handle_t event = (omp_event_handle_t)0;
#pragma omp task detach(event)
      linger();
      handed_over = event;
      set(&created);
    }
    pthread_join(thread, NULL);
  }
  return wrong;
}
