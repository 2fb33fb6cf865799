// A barrier of a region that could be cancelled, and is not, waits for the team's tasks and lets all threads go on.
// openmp: 15.3.1 barrier construct, 15.3.2 implicit barriers, 16.1 cancel construct
// env: OMP_CANCELLATION=true
#include "expect.h"

static void tasks(long *ended) {
  for (int i = 0; i < 3; i++) {
#pragma omp task
    count_late(ended);
  }
}

int main(void) {
  for (int round = 0; round < 20; round++) {
    long ended = 0;
#pragma omp parallel
    {
      const int threads = omp_get_num_threads();
#pragma omp cancel parallel if (threads < 1)
      tasks(&ended);
#pragma omp barrier
      expect("tasks that have ended behind the barrier", now(&ended), 3 * threads);
#pragma omp barrier
#pragma omp for
      for (int i = 0; i < threads; i++) tasks(&ended);
      expect("tasks that have ended behind the loop", now(&ended), 6 * threads);
    }
  }
  return wrong;
}
