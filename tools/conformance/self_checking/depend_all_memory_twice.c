// Two tasks with omp_all_memory follow each other; undeferred, one waits for all before it, and tasks without items are
// not held up.
// openmp: 15.9.5 depend clause
#include "expect.h"

int main(void) {
  for (int round = 0; round < 20; round++) {
    int items[6] = {0};
    long first = 0, second = 0, third = 0, readers = 0;
    (void)items;
#pragma omp parallel
#pragma omp single
    {
      for (int i = 0; i < 6; i++) {
#pragma omp task depend(out : items[i]) shared(first)
        count_late(&first);
      }
#pragma omp task depend(inout : omp_all_memory) shared(first, second)
      {
        expect("tasks that have ended before the first such task", now(&first), 6);
        count_late(&second);
      }
#pragma omp task depend(out : omp_all_memory) depend(in : items[0]) shared(second, third)
      {
        expect("the first has ended before the second", now(&second), 1);
        count_late(&third);
      }
      for (int i = 0; i < 6; i++) {
#pragma omp task depend(in : items[i]) shared(third, readers)
        {
          expect("the second has ended before a reader", now(&third), 1);
          count_late(&readers);
        }
      }
#pragma omp task if (0) depend(out : omp_all_memory) shared(readers)
      expect("readers that have ended before the undeferred task", now(&readers), 6);
    }
  }
  return wrong;
}
