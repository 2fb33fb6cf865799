// A taskwait waits for the children of its task; a taskgroup for all tasks below, too.
// openmp: 15.5 taskwait construct, 15.4 taskgroup construct
#include "expect.h"

int main(void) {
  for (int round = 0; round < 20; round++) {
    long children = 0, below = 0, all = 0;
#pragma omp parallel
#pragma omp single
    {
      for (int i = 0; i < 4; i++) {
#pragma omp task shared(children, below)
        {
#pragma omp task shared(below)
          count_late(&below);
          count(&children);
        }
      }
#pragma omp taskwait
      expect("children that have ended behind taskwait", now(&children), 4);
#pragma omp taskgroup
      for (int i = 0; i < 4; i++) {
#pragma omp task shared(all)
#pragma omp task shared(all)
        count_late(&all);
      }
      expect("grandchildren that have ended behind taskgroup", now(&all), 4);
    }
    expect("grandchildren behind the region", below, 4);
  }
  return wrong;
}
