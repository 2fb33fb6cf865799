// A sibling fulfils the event of a detached task; taskwait waits until then.
// openmp: 12.5.2 detach clause, 18.11.1 omp_fulfill_event
#include "expect.h"

int main(void) {
  for (int round = 0; round < 20; round++) {
    long fulfilled = 0;
#pragma omp parallel
#pragma omp single
    {
      omp_event_handle_t event = (omp_event_handle_t)0;
#pragma omp task detach(event)
      linger();
#pragma omp task firstprivate(event) shared(fulfilled)
      {
        linger();
        set(&fulfilled);
        omp_fulfill_event(event);
      }
#pragma omp taskwait
      expect_so("the event was fulfilled before taskwait ended", now(&fulfilled));
    }
  }
  return wrong;
}
