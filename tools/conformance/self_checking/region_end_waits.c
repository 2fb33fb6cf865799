// The end of a parallel region waits for every task that was created in it, however deep.
// openmp: 10.1 parallel construct, 15.3.2 implicit barriers
#include "expect.h"

static long ended;

static void tree(int depth) {
  if (depth > 0) {
    for (int i = 0; i < 2; i++) {
#pragma omp task
      tree(depth - 1);
    }
  } else {
    linger();
  }
  count(&ended);
}

int main(void) {
  for (int round = 1; round <= 10; round++) {
#pragma omp parallel
#pragma omp single nowait
    tree(5);
    expect("calls that have ended behind the region", ended, 63L * round);
  }
  return wrong;
}
