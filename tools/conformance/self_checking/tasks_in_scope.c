// Every thread of a team runs the block of scope, whose barrier waits for the tasks created in it.
// openmp: 11.2 scope construct
#include "expect.h"

static long ended;

int main(void) {
  for (int round = 0; round < 20; round++) {
    ended = 0;
#pragma omp parallel
    {
#pragma omp scope
      {
        for (int i = 0; i < 3; i++) {
#pragma omp task
          count_late(&ended);
        }
      }
      expect("tasks that have ended behind the scope", now(&ended), 3L * omp_get_num_threads());
    }
  }
  return wrong;
}
