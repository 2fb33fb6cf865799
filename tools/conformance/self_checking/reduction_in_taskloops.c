// Taskloops inside of tasks that take part in a reduction take part too; nested ones reduce items of their own.
// openmp: 5.5.8 reduction clause, 5.5.10 in_reduction clause, 12.6 taskloop construct
#include "expect.h"

int main(void) {
  for (int round = 0; round < 20; round++) {
    long around = 1, own = 2, most = -1;
#pragma omp parallel
#pragma omp single
#pragma omp taskgroup task_reduction(+ : around)
    {
#pragma omp task in_reduction(+ : around)
      {
        around += 5;
#pragma omp taskloop in_reduction(+ : around) num_tasks(4)
        for (int i = 0; i < 20; i++) around += i;
      }
#pragma omp taskloop reduction(+ : own) reduction(max : most) in_reduction(+ : around) grainsize(3)
      for (int i = 0; i < 10; i++) {
        long inner = 0;
#pragma omp taskloop reduction(+ : inner) grainsize(2)
        for (int k = 0; k < 5; k++) inner += k;
        own += inner;
        around += 1000;
        if (most < i) most = i;
      }
      expect("the sum of the outer taskloop", own, 102);
      expect("its maximum", most, 9);
    }
    expect("the sum of the group", around, 10196);
  }
  return wrong;
}
