// A cancelled region ends though it has tasks: those that have begun end, the others need not run, and the next region
// has a whole team.
// openmp: 16.1 cancel construct, 15.3.2 implicit barriers
// env: OMP_CANCELLATION=true
#include "expect.h"

int main(void) {
  for (int round = 0; round < 20; round++) {
    long began = 0, ended = 0, behind = 0, team = 0, threads = 0;
#pragma omp parallel shared(threads)
    {
#pragma omp masked
      threads = omp_get_num_threads();
      for (int i = 0; i < 6; i++) {
#pragma omp task shared(began, ended)
        {
          count(&began);
          count_late(&ended);
        }
      }
      if (omp_get_thread_num() == 0) {
#pragma omp cancel parallel
        count(&behind);
      }
    }
    expect("tasks that have ended, of those that began", ended, began);
    expect("threads that went on behind their cancel", behind, 0);
#pragma omp parallel
    {
#pragma omp task shared(team)
      count(&team);
    }
    expect("tasks of the next region", team, threads);
  }
  return wrong;
}
