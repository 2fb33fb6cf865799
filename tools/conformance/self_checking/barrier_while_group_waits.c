// One thread waits in groups and at taskwait while the others stand at a barrier and run what it creates.
// openmp: 15.3.1 barrier construct, 15.4 taskgroup construct, 15.5 taskwait construct
#include "expect.h"

int main(void) {
  for (int round = 0; round < 20; round++) {
    long in_group = 0, children = 0, last = 0;
#pragma omp parallel
    {
#pragma omp masked
      {
        for (int i = 0; i < 3; i++) {
#pragma omp taskgroup
          for (int k = 0; k < 6; k++) {
#pragma omp task shared(in_group)
#pragma omp task shared(in_group)
            count_late(&in_group);
          }
          expect("tasks of groups behind them", now(&in_group), 6 * (i + 1));
#pragma omp task shared(children)
          count_late(&children);
#pragma omp taskwait
          expect("children behind taskwait", now(&children), i + 1);
        }
        for (int k = 0; k < 6; k++) {
#pragma omp task shared(last)
          count_late(&last);
        }
      }
#pragma omp barrier
      expect("tasks behind the barrier", now(&last), 6);
    }
  }
  return wrong;
}
