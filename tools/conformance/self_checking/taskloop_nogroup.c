// A taskloop waits for its tasks, and for those below them; with nogroup it does not, and taskwait does.
// openmp: 12.6 taskloop construct
#include "expect.h"

int main(void) {
  for (int round = 0; round < 20; round++) {
    long ended = 0;
#pragma omp parallel
#pragma omp single
    {
#pragma omp taskloop grainsize(1) shared(ended)
      for (int i = 0; i < 8; i++) {
#pragma omp task shared(ended)
        count_late(&ended);
      }
      expect("tasks below the taskloop that have ended", now(&ended), 8);
#pragma omp taskloop nogroup grainsize(1) shared(ended)
      for (int i = 0; i < 8; i++) count_late(&ended);
#pragma omp taskwait
      expect("turns that have ended behind taskwait", now(&ended), 16);
    }
  }
  return wrong;
}
