// An untied task keeps its data and its place in its code across waits, yields and creations, on whatever thread.
// openmp: 12.1 untied clause, 12.10 task scheduling
#include "expect.h"

static void child(long *sum, int add) {
#pragma omp task firstprivate(sum, add)
  {
    if (add % 2) linger();
#pragma omp atomic
    *sum += add;
  }
}

int main(void) {
  for (int round = 0; round < 20; round++) {
    long done = 0;
#pragma omp parallel
#pragma omp single
    for (int i = 0; i < 8; i++) {
#pragma omp task untied shared(done) firstprivate(i)
      {
        long sums[3] = {i, 0, 0};
        child(&sums[1], i + 1);
        child(&sums[1], i + 2);
#pragma omp taskwait
        expect("the sum of two children", sums[1], 2 * i + 3);
        child(&sums[2], i);
#pragma omp taskwait
        expect("the sum of a third one", sums[2], i);
        expect("a number from the beginning", sums[0], i);
        count(&done);
      }
    }
    expect("untied tasks that have ended", done, 8);
  }
  return wrong;
}
