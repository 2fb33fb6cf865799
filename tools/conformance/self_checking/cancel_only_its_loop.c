// A cancelled loop is cancelled alone: those before and behind it run all their turns, past a cancel that is not meant.
// openmp: 16.1 cancel construct, 3.4 if clause
// env: OMP_CANCELLATION=true
#include "expect.h"

enum { TURNS = 60 };

static void whole_loop(long *ran) {
#pragma omp for schedule(dynamic, 1)
  for (int i = 0; i < TURNS; i++) {
#pragma omp cancel for if (i < 0)
    count(ran);
  }
}

static void cancelled_loop(void) {
#pragma omp for schedule(dynamic, 1)
  for (int i = 0; i < TURNS; i++) {
#pragma omp cancel for if (i == 3)
  }
}

int main(void) {
  for (int round = 0; round < 20; round++) {
    long before = 0, behind = 0;
#pragma omp parallel
    {
      whole_loop(&before);
      cancelled_loop();
      whole_loop(&behind);
    }
    expect("turns of the loop before the cancelled one", before, TURNS);
    expect("turns of the loop behind it", behind, TURNS);
  }
  return wrong;
}
