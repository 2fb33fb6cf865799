// omp_in_final says whether a task is final or below a final one; its children are included and run at once.
// openmp: 18.5.3 omp_in_final, 12.3 final clause
#include "expect.h"

static void child_of(int is_final) {
  int ran = 0;
#pragma omp task shared(ran)
  {
    expect("omp_in_final in a child", omp_in_final(), is_final);
    ran = 1;
  }
  if (is_final) expect_so("the child of a final task has run", ran);
#pragma omp taskwait
}

int main(void) {
  expect("omp_in_final outside of regions", omp_in_final(), 0);
  for (int round = 0; round < 20; round++) {
#pragma omp parallel
#pragma omp single
    for (int is_final = 0; is_final < 2; is_final++) {
#pragma omp task final(is_final)
      {
        expect("omp_in_final", omp_in_final(), is_final);
        child_of(is_final);
      }
    }
  }
  return wrong;
}
