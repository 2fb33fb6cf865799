// A region inside a task waits for its own tasks at its barriers and its end, while tasks around it go on.
// openmp: 10.1 parallel construct, 15.3.1 barrier construct, 15.3.2 implicit barriers
// env: OMP_MAX_ACTIVE_LEVELS=3
#include "expect.h"

static void region(void) {
  long ended = 0, threads = 0;
#pragma omp parallel num_threads(3) shared(ended, threads)
  {
#pragma omp single
    threads = omp_get_num_threads();
    for (int i = 0; i < 3; i++) {
#pragma omp task shared(ended)
      count_late(&ended);
    }
#pragma omp barrier
    expect("tasks of an inner region behind its barrier", now(&ended), 3 * threads);
#pragma omp barrier
#pragma omp task shared(ended)
    count_late(&ended);
  }
  expect("tasks of an inner region behind its end", ended, 4 * threads);
}

int main(void) {
  for (int round = 0; round < 5; round++) {
    long around = 0;
#pragma omp parallel num_threads(2)
#pragma omp single
    for (int i = 0; i < 4; i++) {
#pragma omp task
      region();
#pragma omp task shared(around)
      count_late(&around);
    }
    expect("tasks around", around, 4);
  }
  return wrong;
}
