// A task creates hundreds of tasks with detach and then fulfils their events: none of them may hold it up before that.
// openmp: 12.5 task construct, 12.5.2 detach clause, 18.11.1 omp_fulfill_event
#include "expect.h"

#define EVENTS 300
static omp_event_handle_t events[EVENTS];
static long ended;

static void create(int i) {
  omp_event_handle_t event = (omp_event_handle_t)0;
#pragma omp task detach(event)
  count(&ended);
  events[i] = event;
}

int main(void) {
  for (int round = 1; round <= 3; round++) {
#pragma omp parallel num_threads(2)
#pragma omp single
    {
      for (int i = 0; i < EVENTS; i++) create(i);
      for (int i = 0; i < EVENTS; i++) omp_fulfill_event(events[i]);
#pragma omp taskwait
      expect("tasks that have ended behind taskwait", now(&ended), EVENTS * round);
    }
  }
  return wrong;
}
