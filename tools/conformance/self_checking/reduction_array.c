// A section of an array is reduced element by element.
// openmp: 5.5.9 task_reduction clause, 3.2.5 array sections
#include "expect.h"

int main(void) {
  for (int round = 0; round < 20; round++) {
    long sums[8] = {7, 0, 0, 0, 0, 0, 0, 7};
#pragma omp parallel
#pragma omp single
#pragma omp taskgroup task_reduction(+ : sums[1 : 6])
    for (int i = 0; i < 60; i++) {
#pragma omp task in_reduction(+ : sums[1 : 6])
      sums[1 + i % 6] += i;
    }
    for (int k = 0; k < 6; k++) expect("an element", sums[1 + k], 10 * k + 6 * 45);
    expect("what is before the section", sums[0], 7);
    expect("what is behind the section", sums[7], 7);
  }
  return wrong;
}
