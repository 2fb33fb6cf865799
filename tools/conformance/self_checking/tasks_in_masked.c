// Only the masked thread creates tasks, masked has no barrier, and the region's end waits for the tasks.
// openmp: 10.5 masked construct
#include "expect.h"

static long created, ended;

int main(void) {
  for (int round = 1; round <= 20; round++) {
#pragma omp parallel
    {
#pragma omp masked filter(omp_get_num_threads() - 1)
      {
        expect("the masked thread", omp_get_thread_num(), omp_get_num_threads() - 1);
        for (int i = 0; i < 12; i++) {
          created++;
#pragma omp task
          count_late(&ended);
        }
      }
    }
    expect("tasks that were created", created, 12L * round);
    expect("tasks that have ended behind the region", ended, 12L * round);
  }
  return wrong;
}
