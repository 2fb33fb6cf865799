// Once a group is cancelled, tasks of it that have not begun need not run, those that have begun end at a cancellation
// point, and the group ends.
// openmp: 16.1 cancel construct, 16.2 cancellation point construct
// env: OMP_CANCELLATION=true
#include "expect.h"

#define LONG_AFTER 200

static long cancelling;

int main(void) {
  expect_so("cancellation counts", omp_get_cancellation());
  for (int round = 0; round < 10; round++) {
    long behind_point = 0, behind_cancel = 0;
    cancelling = 0;
#pragma omp parallel
#pragma omp single
#pragma omp taskgroup
    for (int i = 0; i < 16; i++) {
#pragma omp task shared(behind_point, behind_cancel)
      {
        if (i == 3) {
          set(&cancelling);
#pragma omp cancel taskgroup
          count(&behind_cancel);
        }
        int after = 0;
        for (int turn = 0; turn < 20 || (now(&cancelling) && after < LONG_AFTER); turn++) {
#pragma omp cancellation point taskgroup
          after += now(&cancelling);
          usleep(50);
        }
        if (after == LONG_AFTER) count(&behind_point);
      }
    }
    expect("tasks that went on behind cancel", behind_cancel, 0);
    expect("tasks that went on long after the group was cancelled", behind_point, 0);
  }
  return wrong;
}
