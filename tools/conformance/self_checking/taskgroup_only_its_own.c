// The end of a taskgroup does not need tasks that were created before it: one of them may wait for what follows it.
// openmp: 15.4 taskgroup construct
#include "expect.h"

int main(void) {
  if (omp_get_max_threads() < 2) return 0;
  for (int round = 0; round < 20; round++) {
    long let_go = 0, began = 0, in_group = 0;
#pragma omp parallel num_threads(2)
#pragma omp single
    {
#pragma omp task shared(let_go, began)
      {
        set(&began);
        await(&let_go);
      }
      await(&began);
#pragma omp taskgroup
      {
#pragma omp task shared(in_group)
        count(&in_group);
      }
      expect("tasks of the group that have ended", in_group, 1);
      set(&let_go);
    }
  }
  return wrong;
}
