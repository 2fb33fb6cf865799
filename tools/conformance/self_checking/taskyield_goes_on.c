// A task that yields goes on, on its thread where it is tied.
// openmp: 12.8 taskyield construct
#include "expect.h"

int main(void) {
  for (int round = 0; round < 10; round++) {
    long ended = 0;
#pragma omp parallel
#pragma omp single
    for (int i = 0; i < 30; i++) {
#pragma omp task shared(ended)
      {
        int thread = omp_get_thread_num();
#pragma omp taskyield
        expect("the thread behind taskyield", omp_get_thread_num(), thread);
        count(&ended);
      }
    }
    expect("tasks that have ended", ended, 30);
  }
  return wrong;
}
