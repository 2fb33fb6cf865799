// A cancelled sections construct begins no section behind the cancellation that the thread can see, and its barrier
// lets all threads on.
// openmp: 16.1 cancel construct, 16.2 cancellation point construct, 11.3 sections construct
// env: OMP_CANCELLATION=true
#include "expect.h"

int main(void) {
  for (int round = 0; round < 20; round++) {
    long went_on = 0, behind = 0, threads = 0;
#pragma omp parallel
    {
#pragma omp sections
      {
#pragma omp section
        {
#pragma omp cancel sections
          count(&went_on);
        }
#pragma omp section
        {
          linger();
#pragma omp cancellation point sections
        }
      }
      count(&behind);
#pragma omp single
      threads = omp_get_num_threads();
    }
    expect("sections that went on behind cancel", went_on, 0);
    expect("threads behind the sections", behind, threads);
  }
  return wrong;
}
