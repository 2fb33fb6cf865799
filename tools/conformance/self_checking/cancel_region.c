// Threads end at a cancelled region's cancellation points and barriers, and the program goes on behind the region.
// openmp: 16.1 cancel construct, 16.2 cancellation point construct
// env: OMP_CANCELLATION=true
#include "expect.h"

int main(void) {
  for (int round = 0; round < 20; round++) {
    long behind = 0, after = 0;
#pragma omp parallel
    {
      if (omp_get_thread_num() == 0) {
#pragma omp cancel parallel
        count(&behind);
      }
#pragma omp barrier
      count(&behind);
    }
#pragma omp parallel
    count(&after);
    expect("threads behind the cancel or the barrier", behind, 0);
    expect_so("the next region runs", after > 0);
  }
  return wrong;
}
