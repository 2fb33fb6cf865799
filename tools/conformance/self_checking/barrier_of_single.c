// The barrier at the end of single waits for the tasks that were created in it; with nowait there is none.
// openmp: 11.1 single construct, 15.3.2 implicit barriers
#include "expect.h"

static long ended;

int main(void) {
  for (int round = 0; round < 20; round++) {
    ended = 0;
#pragma omp parallel
    {
#pragma omp single
      for (int i = 0; i < 16; i++) {
#pragma omp task
        count_late(&ended);
      }
      expect("tasks that have ended behind single", now(&ended), 16);
    }
  }
  return wrong;
}
