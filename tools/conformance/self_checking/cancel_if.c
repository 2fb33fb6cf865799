// A cancel whose if clause is false cancels nothing; one that is true ends the task that comes to it.
// openmp: 16.1 cancel construct, 3.4 if clause
// env: OMP_CANCELLATION=true
#include "expect.h"

static long behind[2];

static void group_with(int does) {
#pragma omp taskgroup
  for (int i = 0; i < 8; i++) {
#pragma omp task
    {
#pragma omp cancel taskgroup if (does)
      count_late(&behind[does]);
    }
  }
}

int main(void) {
  for (int round = 1; round <= 20; round++) {
#pragma omp parallel
#pragma omp single
    {
      group_with(0);
      group_with(1);
      group_with(0);
    }
    expect("tasks that went on where if is false", behind[0], 16L * round);
    expect("tasks that went on where if is true", behind[1], 0);
  }
  return wrong;
}
