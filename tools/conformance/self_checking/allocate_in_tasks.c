// With allocate a task's copies come from an allocator: they have the creator's values, and reductions theirs.
// openmp: 6.6 allocate clause, 5.4.4 firstprivate clause
#include "expect.h"

int main(void) {
  for (int round = 0; round < 20; round++) {
    long a = 40 + round, b = 2, own = -1, sum = 0;
#pragma omp parallel
#pragma omp single
    {
      for (int i = 0; i < 10; i++) {
#pragma omp task firstprivate(a, b) private(own) allocate(omp_default_mem_alloc : a, own)
        {
          own = a + b;
          linger();
          expect("the sum of copies", own, 42 + round);
          a = b = 0;
        }
        expect("the creator's variables", a + b, 42 + round);
      }
#pragma omp taskgroup task_reduction(+ : sum) allocate(omp_default_mem_alloc : sum)
      for (int i = 0; i < 10; i++) {
#pragma omp task in_reduction(+ : sum)
        sum += i;
      }
    }
    expect("a sum that is allocated", sum, 45);
  }
  return wrong;
}
