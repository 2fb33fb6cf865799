// A task whose group is cancelled goes on, and what it then creates and waits for runs or is left out: a taskwait, with
// items or without, an undeferred task and a taskloop end, and what ran before has ended.
// openmp: 16.1 cancel construct, 15.5 taskwait construct, 12.6 taskloop construct
// env: OMP_CANCELLATION=true
#include "expect.h"

enum { CHILDREN = 40 };

static long begun, ended;

static void child(void) {
  count(&begun);
  count_late(&ended);
}

static void make_children(void) {
  for (int i = 0; i < CHILDREN; i++) {
#pragma omp task
    child();
  }
}

// By an undeferred task, so the one that calls it goes on.
static void cancel_own_group(void) {
#pragma omp task if (0)
  {
#pragma omp cancel taskgroup
  }
}

static void wait_for_children(void) {
  make_children();
  cancel_own_group();
#pragma omp taskwait
}

static void wait_by_items(void) {
  int item = 0, other = 0;
  (void)item, (void)other;
  make_children();
  for (int i = 0; i < CHILDREN; i++) {
#pragma omp task depend(inout : item) depend(out : other)
    child();
  }
  cancel_own_group();
#pragma omp task if (0) depend(inout : item)
  linger();
#pragma omp taskwait depend(in : other)
#pragma omp taskwait
}

static void wait_for_loop(void) {
  make_children();
  cancel_own_group();
#pragma omp taskloop nogroup
  for (int i = 0; i < CHILDREN; i++) child();
#pragma omp taskloop
  for (int i = 0; i < CHILDREN; i++) child();
#pragma omp taskwait
}

int main(void) {
  static void (*const waits[])(void) = {wait_for_children, wait_by_items, wait_for_loop};
  for (int round = 0; round < 15; round++) {
    long behind = 0;
#pragma omp parallel
#pragma omp single
    {
#pragma omp taskgroup
      {
#pragma omp task
        {
          waits[round % 3]();
          expect("tasks that have ended behind the wait", now(&ended), now(&begun));
        }
      }
      expect("tasks that have ended behind the group", now(&ended), now(&begun));
#pragma omp task shared(behind)
      count(&behind);
#pragma omp taskwait
      expect("tasks behind the cancelled group", behind, 1);
    }
  }
  return wrong;
}
