// A lock belongs to the task that sets it: another task of the same thread finds it taken, and may be let go by it.
// openmp: 18.9 lock routines, 12.8 taskyield construct
#include "expect.h"

int main(void) {
  omp_nest_lock_t nest;
  omp_lock_t plain;
  omp_init_nest_lock(&nest);
  omp_init_lock(&plain);
  for (int round = 0; round < 20; round++) {
    int taken = -1, inner = -1, again = -1;
#pragma omp parallel
#pragma omp single
    {
      omp_set_nest_lock(&nest);
      omp_set_lock(&plain);
#pragma omp task if (0) shared(taken, inner)
      {
        taken = omp_test_lock(&plain);
        inner = omp_test_nest_lock(&nest);
      }
      again = omp_test_nest_lock(&nest);
      omp_unset_nest_lock(&nest);
      omp_unset_nest_lock(&nest);
      omp_unset_lock(&plain);
    }
    expect("whether another task gets a lock that is set", taken, 0);
    expect("whether another task gets a nestable lock", inner, 0);
    expect("how often the task that has it set a nestable lock", again, 2);
  }
  omp_destroy_nest_lock(&nest);
  omp_destroy_lock(&plain);
  return wrong;
}
