// Two threads outside of the team fulfil the events of many tasks, in another order than that of their creation, while
// a thread waits at taskwait or at the end of a group.
// openmp: 12.5.2 detach clause, 18.11.1 omp_fulfill_event, 15.4 taskgroup construct, 15.5 taskwait construct
#include <pthread.h>

#include "expect.h"

#define EVENTS 12
static omp_event_handle_t events[EVENTS];
static long created[EVENTS], fulfilled[EVENTS];

static void *outside(void *first) {
  for (int i = EVENTS - 1 - (int)(long)first; i >= 0; i -= 2) {
    await(&created[i]);
    linger();
    set(&fulfilled[i]);
    omp_fulfill_event(events[i]);
  }
  return NULL;
}

static void detached(int i) {
  omp_event_handle_t event = (omp_event_handle_t)0;
#pragma omp task detach(event)
  if (i % 3 == 0) linger();
  events[i] = event;
  set(&created[i]);
}

static void wait_for_all(int how) {
  if (how == 0) {
    for (int i = 0; i < EVENTS; i++) detached(i);
#pragma omp taskwait
  } else {
#pragma omp taskgroup
    for (int i = 0; i < EVENTS; i++) detached(i);
  }
  for (int i = 0; i < EVENTS; i++) expect_so("an event was fulfilled before the wait ended", now(&fulfilled[i]));
}

static void round_of(int how) {
  pthread_t threads[2];
  for (int i = 0; i < EVENTS; i++) created[i] = fulfilled[i] = 0;
  for (long i = 0; i < 2; i++)
    if (pthread_create(&threads[i], NULL, outside, (void *)i)) _exit(0);
#pragma omp parallel
#pragma omp single
  wait_for_all(how);
  for (int i = 0; i < 2; i++) pthread_join(threads[i], NULL);
}

int main(void) {
  for (int round = 0; round < 10; round++) round_of(round % 2);
  return wrong;
}
