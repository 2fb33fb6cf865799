// With if(0) the tasks of a taskloop have run before it goes on, by the thread that creates them; with final they are
// final.
// openmp: 12.6 taskloop construct, 3.4 if clause, 12.3 final clause
#include "expect.h"

int main(void) {
  for (int round = 0; round < 20; round++) {
    long undeferred = 0, all = 0, below = 0;
#pragma omp parallel
#pragma omp single
    {
      int thread = omp_get_thread_num();
#pragma omp taskloop if (0) nogroup grainsize(2) shared(undeferred)
      for (int i = 0; i < 10; i++) {
        expect("the thread of an undeferred turn", omp_get_thread_num(), thread);
        count(&undeferred);
      }
      expect("undeferred turns behind the taskloop", undeferred, 10);
#pragma omp taskloop final(1) num_tasks(3) shared(all, below)
      for (int i = 0; i < 10; i++) {
        expect_so("a turn of a final taskloop is final", omp_in_final());
        int ran = 0;
#pragma omp task shared(ran, below)
        {
          ran = 1;
          count(&below);
        }
        expect_so("the child of a turn has run", ran);
        count(&all);
      }
      expect("final turns behind the taskloop", all, 10);
    }
    expect("children of final turns", below, 10);
  }
  return wrong;
}
