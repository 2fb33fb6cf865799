// A task sees the region that it belongs to: the size of its team, the level, and the thread of the level above.
// openmp: 18.2 thread team routines, 12.10 task scheduling
// env: OMP_MAX_ACTIVE_LEVELS=2
#include "expect.h"

static void inner_region(int outer) {
#pragma omp parallel num_threads(2)
  {
    int size = omp_get_num_threads();
#pragma omp task
    {
      linger();
      expect("the level in a task of the inner region", omp_get_level(), 2);
      expect("the team's size in a task", omp_get_num_threads(), size);
      expect("the thread of the outer level", omp_get_ancestor_thread_num(1), outer);
      expect_so("the thread's number", omp_get_thread_num() < size);
    }
  }
}

int main(void) {
  for (int round = 0; round < 20; round++) {
#pragma omp parallel
#pragma omp single
    for (int i = 0; i < 4; i++) {
#pragma omp task
      {
        expect("the level in a task", omp_get_level(), 1);
        inner_region(omp_get_thread_num());
        expect("the level in a task behind its region", omp_get_level(), 1);
      }
    }
  }
  return wrong;
}
