// Each of many barriers waits for the tasks created since the last one, also those that other tasks create meanwhile.
// openmp: 15.3.1 barrier construct, 12.10 task scheduling
#include "expect.h"

static long ended[8];

static void pair(int phase) {
#pragma omp task
  {
#pragma omp task
    {
      if (phase % 2) linger();
      count(&ended[phase]);
    }
    count(&ended[phase]);
  }
}

int main(void) {
  for (int round = 1; round <= 10; round++) {
#pragma omp parallel
    {
      for (int phase = 0; phase < 8; phase++) {
        if (phase < 4 || omp_get_thread_num() == 0) pair(phase);
#pragma omp barrier
        long creators = phase < 4 ? omp_get_num_threads() : 1;
        expect("tasks of the phase behind its barrier", now(&ended[phase]), 2 * creators * round);
      }
    }
  }
  return wrong;
}
