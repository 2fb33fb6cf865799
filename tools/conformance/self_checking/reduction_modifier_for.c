// With the modifier task, tasks that turns of a loop create take part in the loop's reduction.
// openmp: 5.5.8 reduction clause (task reduction-modifier)
#include "expect.h"

int main(void) {
  for (int round = 0; round < 20; round++) {
    long sum = 5;
#pragma omp parallel
    {
#pragma omp for reduction(task, + : sum)
      for (int i = 0; i < 20; i++) {
        sum += i;
#pragma omp task in_reduction(+ : sum)
        sum += 100;
      }
    }
    expect("the sum", sum, 2195);
  }
  return wrong;
}
