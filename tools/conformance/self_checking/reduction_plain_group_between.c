// A plain group inside of one with a reduction does not hide its items from the tasks in it.
// openmp: 15.4 taskgroup construct, 5.5.10 in_reduction clause
#include "expect.h"

int main(void) {
  for (int round = 0; round < 20; round++) {
    long sum = 0;
#pragma omp parallel
#pragma omp single
#pragma omp taskgroup task_reduction(+ : sum)
    {
#pragma omp taskgroup
      for (int i = 1; i <= 8; i++) {
#pragma omp task in_reduction(+ : sum)
        sum += i;
      }
#pragma omp task in_reduction(+ : sum)
      sum += 100;
    }
    expect("the sum", sum, 136);
  }
  return wrong;
}
