// Depend objects that a task makes order tasks that its creator creates later.
// openmp: 15.9.2 depend objects, 15.9.4 depobj construct, 15.9.5 depend clause
#include "expect.h"

int main(void) {
  for (int round = 0; round < 20; round++) {
    omp_depend_t first, second;
    int items[2] = {0};
    long ended = 0;
    (void)items;
#pragma omp parallel
#pragma omp single
    {
#pragma omp task shared(first, second, items)
      {
#pragma omp depobj(first) depend(out : items[0])
#pragma omp depobj(second) depend(in : items[1])
      }
#pragma omp taskwait
#pragma omp task depend(depobj : first) shared(ended)
      count_late(&ended);
#pragma omp task depend(out : items[1]) shared(ended)
      count_late(&ended);
#pragma omp task depend(depobj : first, second) shared(ended)
      {
        expect("tasks that have ended before that of both objects", now(&ended), 2);
        count_late(&ended);
      }
#pragma omp task depend(in : items[0]) shared(ended)
      expect("tasks that have ended before the last reader", now(&ended), 3);
    }
  }
  return wrong;
}
