// One depend object serves several tasks, is updated to another kind, and stands beside plain items.
// openmp: 15.9.2 depend objects, 15.9.4 depobj construct
#include "expect.h"

int main(void) {
  for (int round = 0; round < 20; round++) {
    int item = 0, other = 0, value = 0;
    (void)item, (void)other;
#pragma omp parallel
#pragma omp single
    {
      omp_depend_t object;
#pragma omp depobj(object) depend(inout : item)
      for (int i = 0; i < 6; i++) {
#pragma omp task depend(depobj : object) shared(value)
        {
          int before = value;
          if (i == 2) linger();
          value = before + 1;
        }
      }
#pragma omp depobj(object) update(in)
#pragma omp task depend(depobj : object) depend(out : other) shared(value)
      {
        expect("tasks that have ended before the reader", value, 6);
        linger();
        value = 10;
      }
#pragma omp task depend(in : other) shared(value)
      expect("the value behind the reader's own item", value, 10);
#pragma omp taskwait
    }
  }
  return wrong;
}
