// copyprivate gives what one thread read to all, though tasks run at the barrier of single.
// openmp: 5.7.2 copyprivate clause, 11.1 single construct
#include "expect.h"

int main(void) {
  for (int round = 0; round < 20; round++) {
#pragma omp parallel
    {
      int value = -1;
#pragma omp single copyprivate(value)
      {
        for (int i = 0; i < 8; i++) {
#pragma omp task
          linger();
        }
        value = 100 + round;
      }
      expect("the value behind single", value, 100 + round);
    }
  }
  return wrong;
}
