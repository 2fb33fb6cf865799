// The greatest priority is that of the environment, and tasks of any priority run once.
// openmp: 18.5.1 omp_get_max_task_priority, 12.4 priority clause
// env: OMP_MAX_TASK_PRIORITY=7
#include "expect.h"

int main(void) {
  expect("the greatest priority", omp_get_max_task_priority(), 7);
  for (int round = 0; round < 20; round++) {
    long ran = 0;
#pragma omp parallel
#pragma omp single
    for (int i = 0; i < 40; i++) {
#pragma omp task priority(i % 12) shared(ran)
      {
        if (i % 5 == 0) linger();
        count(&ran);
      }
    }
    expect("tasks that ran", ran, 40);
  }
  return wrong;
}
