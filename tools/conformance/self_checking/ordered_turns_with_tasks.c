// Turns that create tasks keep their order in ordered regions.
// openmp: 15.10 ordered construct
#include "expect.h"

int main(void) {
  for (int round = 0; round < 10; round++) {
    int next = 0;
    long ended = 0;
#pragma omp parallel
#pragma omp for ordered schedule(dynamic, 1)
    for (int i = 0; i < 40; i++) {
#pragma omp task shared(ended)
      count(&ended);
#pragma omp ordered
      {
        expect("the turn in the ordered region", i, next);
        next = i + 1;
      }
    }
    expect("tasks behind the region", ended, 40);
  }
  return wrong;
}
