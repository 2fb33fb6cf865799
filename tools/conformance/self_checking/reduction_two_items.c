// A group reduces several items of one clause, and those of two clauses, each by itself.
// openmp: 5.5.9 task_reduction clause, 5.5.10 in_reduction clause
#include "expect.h"

int main(void) {
  for (int round = 0; round < 20; round++) {
    long a = 1, b = 2;
    int c = 3;
#pragma omp parallel
#pragma omp single
#pragma omp taskgroup task_reduction(+ : a, b) task_reduction(+ : c)
    for (int i = 1; i <= 20; i++) {
#pragma omp task in_reduction(+ : a, b) in_reduction(+ : c)
      {
        a += i;
        b += 100 * i;
        c += 2;
      }
    }
    expect("the first item", a, 211);
    expect("the second item", b, 21002);
    expect("the item of the second clause", c, 43);
  }
  return wrong;
}
