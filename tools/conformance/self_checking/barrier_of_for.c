// Each turn of a loop may create tasks; the barrier at the loop's end waits for them all.
// openmp: 11.5 worksharing-loop constructs, 15.3.2 implicit barriers
// env: OMP_SCHEDULE=static
#include "expect.h"

static long ended;

static void in_a_region_of_a_loop(void) {
  ended = 0;
#pragma omp parallel for schedule(runtime)
  for (int i = 0; i < 40; i++) {
#pragma omp task
    count(&ended);
  }
  expect("tasks that have ended behind the region", now(&ended), 40);
}

int main(void) {
  for (int round = 0; round < 20; round++) {
    in_a_region_of_a_loop();
    ended = 0;
#pragma omp parallel
    {
#pragma omp for schedule(dynamic, 3)
      for (int i = 0; i < 40; i++) {
#pragma omp task
        {
          if (i % 8 == 0) linger();
          count(&ended);
        }
      }
      expect("tasks that have ended behind the loop", now(&ended), 40);
    }
  }
  return wrong;
}
