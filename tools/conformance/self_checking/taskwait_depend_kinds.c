// A taskwait with depend waits by each kind of item, with several at once, and with an iterator.
// openmp: 15.5 taskwait construct, 15.9.5 depend clause, 3.2.6 iterators
#include "expect.h"

int main(void) {
  for (int round = 0; round < 20; round++) {
    int items[4] = {0};
    long writers = 0, readers = 0;
    (void)items;
#pragma omp parallel
#pragma omp single
    {
      for (int i = 0; i < 4; i++) {
#pragma omp task depend(out : items[i]) shared(writers)
        count_late(&writers);
      }
#pragma omp taskwait depend(iterator(k = 0 : 4), in : items[k])
      expect("writers that have ended behind taskwait", now(&writers), 4);
      for (int i = 0; i < 4; i++) {
#pragma omp task depend(in : items[i]) shared(readers)
        count_late(&readers);
      }
#pragma omp taskwait depend(inout : items[0], items[1]) depend(out : items[2], items[3])
      expect("readers that have ended behind taskwait", now(&readers), 4);
    }
  }
  return wrong;
}
