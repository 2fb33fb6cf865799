// A taskloop simd has each turn once, adds to reductions, and leaves lastprivate items as a loop does.
// openmp: 12.7 taskloop simd construct, 5.5.8 reduction clause, 5.4.5 lastprivate clause
#include "expect.h"

static long seen[100];

int main(void) {
  for (int round = 1; round <= 20; round++) {
    long sum = 3;
    int last = -1;
#pragma omp parallel
#pragma omp single
#pragma omp taskloop simd grainsize(7) reduction(+ : sum) lastprivate(last)
    for (int i = 0; i < 100; i++) {
      seen[i]++;
      sum += i;
      last = i;
    }
    for (int i = 0; i < 100; i++) expect("runs of a turn", seen[i], round);
    expect("the sum", sum, 4953);
    expect("the lastprivate item", last, 99);
  }
  return wrong;
}
