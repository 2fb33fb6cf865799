// A cancelled loop begins no turn behind a cancellation point, and its barrier lets all threads on.
// openmp: 16.1 cancel construct, 16.2 cancellation point construct
// env: OMP_CANCELLATION=true
#include "expect.h"

int main(void) {
  for (int round = 0; round < 20; round++) {
    long went_on = 0, threads = 0, behind = 0;
#pragma omp parallel
    {
#pragma omp for schedule(dynamic, 1)
      for (int i = 0; i < 1000; i++) {
        if (i == 5) {
#pragma omp cancel for
          count(&went_on);
        }
#pragma omp cancellation point for
        usleep(10);
      }
      count(&behind);
#pragma omp single
      threads = omp_get_num_threads();
    }
    expect("turns that went on behind cancel", went_on, 0);
    expect("threads behind the loop", behind, threads);
  }
  return wrong;
}
