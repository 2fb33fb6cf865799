// What waits inside of a group, by items or for children, changes nothing of what the group's end waits for.
// openmp: 15.4 taskgroup construct, 15.5 taskwait construct, 15.9.5 depend clause
#include "expect.h"

static void group(long *ended) {
  int a = 0, b = 0;
  (void)a, (void)b;
#pragma omp taskgroup
  {
#pragma omp task depend(out : a)
    count_late(ended);
#pragma omp task depend(out : b)
    count_late(ended);
#pragma omp taskwait depend(in : a)
#pragma omp task depend(inout : a)
    {
#pragma omp task
      count_late(ended);
      count(ended);
    }
#pragma omp task if (0) depend(inout : b)
    count(ended);
#pragma omp task
    count_late(ended);
#pragma omp taskwait
#pragma omp task depend(in : a, b)
    count_late(ended);
  }
  expect("tasks that have ended behind the group", now(ended), 7);
}

int main(void) {
  for (int round = 0; round < 20; round++) {
#pragma omp parallel
#pragma omp single
    for (int i = 0; i < 3; i++) {
      long ended = 0;
      group(&ended);
    }
  }
  return wrong;
}
