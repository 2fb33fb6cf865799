// A group whose tasks add nothing, or that has none, leaves its items as they were.
// openmp: 5.5.9 task_reduction clause
#include "expect.h"

int main(void) {
  for (int round = 0; round < 20; round++) {
    long sum = 11, product = 13, idle = 17;
    int array[3] = {1, 2, 3};
#pragma omp parallel
#pragma omp single
    {
#pragma omp taskgroup task_reduction(+ : sum) task_reduction(* : product)
      for (int i = 0; i < 5; i++) {
#pragma omp task
        linger();
      }
#pragma omp taskgroup task_reduction(+ : idle, array)
      {
      }
    }
    expect("a sum", sum, 11);
    expect("a product", product, 13);
    expect("the item of an empty group", idle, 17);
    expect("its array", array[0] + array[1] + array[2], 6);
  }
  return wrong;
}
