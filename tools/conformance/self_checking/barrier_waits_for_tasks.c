// A barrier waits for all tasks that the team has created before it, and for those below them.
// openmp: 15.3.1 barrier construct
#include "expect.h"

static long ended;

static void one_task(void) {
#pragma omp task
  {
#pragma omp task
    count_late(&ended);
    count_late(&ended);
  }
}

int main(void) {
  for (int round = 0; round < 20; round++) {
    ended = 0;
#pragma omp parallel
    {
      for (int i = 0; i < 4; i++) one_task();
#pragma omp barrier
      expect("tasks that have ended behind the barrier", now(&ended), 8L * omp_get_num_threads());
    }
  }
  return wrong;
}
