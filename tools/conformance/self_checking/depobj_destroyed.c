// A depend object may be destroyed once the tasks with it are created, and made again for another item.
// openmp: 15.9.4 depobj construct (destroy clause)
#include "expect.h"

int main(void) {
  for (int round = 0; round < 20; round++) {
    int items[3] = {0};
    long ended[3] = {0};
    (void)items;
#pragma omp parallel
#pragma omp single
    {
      omp_depend_t object;
      for (int k = 0; k < 3; k++) {
#pragma omp depobj(object) depend(inout : items[k])
#pragma omp task depend(depobj : object) shared(ended)
        count_late(&ended[k]);
#pragma omp depobj(object) destroy
      }
      for (int k = 0; k < 3; k++) {
#pragma omp task depend(in : items[k]) shared(ended)
        expect("the task before has ended", now(&ended[k]), 1);
      }
    }
  }
  return wrong;
}
