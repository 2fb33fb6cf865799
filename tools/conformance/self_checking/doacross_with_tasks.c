// Turns that wait for others (sink) and let others go (source) keep that order while they create tasks.
// openmp: 15.9.6 doacross clause, 15.10.1 stand-alone ordered construct
#include "expect.h"

int main(void) {
  for (int round = 0; round < 3; round++) {
    int cells[14] = {0};
#pragma omp parallel
#pragma omp for ordered(1) schedule(static, 1)
    for (int i = 1; i < 14; i++) {
#pragma omp task
      linger();
#pragma omp ordered depend(sink : i - 1)
      cells[i] = cells[i - 1] + 1;
#pragma omp ordered depend(source)
    }
    expect("the last cell of the chain", cells[13], 13);
  }
  return wrong;
}
