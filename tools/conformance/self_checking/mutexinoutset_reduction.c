// Tasks with mutexinoutset on one item run one at a time, in any order, behind the readers before them.
// openmp: 15.9.5 depend clause
#include "expect.h"

int main(void) {
  for (int round = 0; round < 20; round++) {
    int item = 0;
    long readers = 0, inside = 0;
#pragma omp parallel
#pragma omp single
    {
      for (int i = 0; i < 4; i++) {
#pragma omp task depend(in : item) shared(readers)
        count_late(&readers);
      }
      for (int i = 0; i < 12; i++) {
#pragma omp task depend(mutexinoutset : item) shared(item, readers, inside)
        {
          long others;
#pragma omp atomic capture
          others = inside++;
          expect("other tasks inside", others, 0);
          expect("readers that have ended", now(&readers), 4);
          item++;
#pragma omp atomic
          inside--;
        }
      }
#pragma omp taskwait
      expect("what the tasks added", item, 12);
    }
  }
  return wrong;
}
