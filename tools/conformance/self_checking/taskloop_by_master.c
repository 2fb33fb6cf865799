// The combined forms of taskloop with parallel and master: one thread creates the tasks, and the region waits for them.
// openmp: 17.3 combined and composite directive names, 12.6 taskloop construct
#include "expect.h"

int main(void) {
  for (int round = 0; round < 20; round++) {
    long whole = 0, sum = 0, inside = 0, simd = 0;
#pragma omp parallel master taskloop grainsize(3) reduction(+ : sum)
    for (int i = 0; i < 40; i++) {
      count(&whole);
      sum += i;
    }
    expect("turns of parallel master taskloop", whole, 40);
    expect("the sum of its turns", sum, 780);
#pragma omp parallel
    {
#pragma omp master taskloop num_tasks(5)
      for (int i = 0; i < 40; i++) count_late(&inside);
    }
    expect("turns of master taskloop", inside, 40);
#pragma omp parallel master taskloop simd reduction(+ : simd)
    for (int i = 0; i < 40; i++) simd += i;
    expect("the sum of parallel master taskloop simd", simd, 780);
  }
  return wrong;
}
