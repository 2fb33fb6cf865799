// A tied task stays on its thread, and so with its threadprivate variables, across waits and creations.
// openmp: 12.10 task scheduling, 5.2 threadprivate directive
#include "expect.h"

static int mine;
#pragma omp threadprivate(mine)

static void wait_for_children(void) {
  int before = mine, thread = omp_get_thread_num();
  for (int i = 0; i < 4; i++) {
#pragma omp task
    linger();
  }
#pragma omp taskwait
  expect("the thread behind taskwait", omp_get_thread_num(), thread);
  expect("the threadprivate variable behind taskwait", mine, before);
}

int main(void) {
  for (int round = 0; round < 20; round++) {
#pragma omp parallel
    {
      mine = 1 + omp_get_thread_num();
#pragma omp barrier
#pragma omp single
      for (int i = 0; i < 12; i++) {
#pragma omp task
        wait_for_children();
      }
    }
  }
  return wrong;
}
