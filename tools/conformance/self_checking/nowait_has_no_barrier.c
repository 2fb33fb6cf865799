// A loop with nowait lets a thread on while its tasks are not complete; the next barrier waits for them.
// openmp: 15.6 nowait clause, 11.5 worksharing-loop constructs, 15.3.2 implicit barriers
#include "expect.h"

int main(void) {
  if (omp_get_max_threads() < 2) return 0;
  for (int round = 0; round < 20; round++) {
    long let_go = 0, began = 0, ended = 0;
#pragma omp parallel num_threads(2)
    if (omp_get_num_threads() == 2) {
#pragma omp for schedule(static, 1) nowait
      for (int i = 0; i < 2; i++) {
        if (i == 1) {
#pragma omp task if (0) shared(let_go, began, ended)
          {
            set(&began);
            await(&let_go);
            count_late(&ended);
          }
#pragma omp task shared(ended)
          count_late(&ended);
        }
      }
      if (omp_get_thread_num() == 0) {
        await(&began);
        set(&let_go);
      }
#pragma omp barrier
      expect("tasks behind the barrier", now(&ended), 2);
    }
  }
  return wrong;
}
