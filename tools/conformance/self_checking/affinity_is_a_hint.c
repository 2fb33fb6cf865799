// Whatever affinity says, tasks run once and wait as without it.
// openmp: 12.5.1 affinity clause, 3.2.6 iterators
#include "expect.h"

int main(void) {
  for (int round = 0; round < 20; round++) {
    long field[16] = {0}, chain = 0;
#pragma omp parallel
#pragma omp single
    {
      for (int i = 0; i < 16; i++) {
#pragma omp task affinity(field[i]) shared(field)
        count_late(&field[i]);
#pragma omp task affinity(iterator(k = 0 : 4) : field[4 * k]) depend(inout : chain) shared(chain)
        chain = chain + i;
      }
#pragma omp taskwait
      for (int i = 0; i < 16; i++) expect("runs of a task", field[i], 1);
      expect("the sum of the chain", chain, 120);
    }
  }
  return wrong;
}
