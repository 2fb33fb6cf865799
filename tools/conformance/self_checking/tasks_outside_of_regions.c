// Outside of any region a task belongs to the initial task: waits, items, taskloops and groups work there too.
// openmp: 12.9 initial task, 12.5 task construct, 15.4 taskgroup construct, 15.5 taskwait construct
#include "expect.h"

static long value, ended;

static void children(void) {
  for (int i = 0; i < 5; i++) {
#pragma omp task depend(inout : value)
    value = 2 * value + 1;
  }
#pragma omp task if (0) depend(in : value)
  expect("the value of the chain", value, 31);
#pragma omp taskwait
  expect("the same behind taskwait", value, 31);
}

int main(void) {
  for (int round = 0; round < 20; round++) {
    long turns = 0;
    value = ended = 0;
    children();
#pragma omp taskgroup
    {
#pragma omp taskloop nogroup num_tasks(4) shared(turns)
      for (int i = 0; i < 10; i++) count(&turns);
#pragma omp task shared(turns)
#pragma omp task shared(turns)
      count(&turns);
    }
    expect("turns and tasks behind the group", turns, 11);
#pragma omp parallel
#pragma omp single
#pragma omp task
    count_late(&ended);
    expect("tasks behind the region that follows", ended, 1);
  }
  return wrong;
}
