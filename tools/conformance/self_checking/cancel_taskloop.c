// A task of a taskloop may cancel the group that the taskloop has: what has not begun need not run, and the taskloop
// ends.
// openmp: 16.1 cancel construct, 12.6 taskloop construct
// env: OMP_CANCELLATION=true
#include "expect.h"

int main(void) {
  for (int round = 0; round < 20; round++) {
    long went_on = 0, turns = 0, later = 0, outer = 0;
#pragma omp parallel
#pragma omp single
#pragma omp taskgroup
    {
#pragma omp task shared(outer)
      count_late(&outer);
#pragma omp taskloop grainsize(1) shared(went_on, turns)
      for (int i = 0; i < 40; i++) {
        count(&turns);
        if (i == 5) {
#pragma omp cancel taskgroup
          count(&went_on);
        }
        linger();
      }
#pragma omp task shared(later)
      count(&later);
    }
    expect("turns that went on behind cancel", went_on, 0);
    expect_so("no turn ran twice", turns <= 40);
    expect("tasks of the group around it", outer + later, 2);
  }
  return wrong;
}
