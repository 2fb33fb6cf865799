// Taskloops in the turns of others, by several tasks at once: each has its own turns and its own end.
// openmp: 12.6 taskloop construct
#include "expect.h"

static long inner(int count_of) {
  long sum = 0;
#pragma omp taskloop grainsize(2) shared(sum)
  for (int i = 0; i < count_of; i++) {
    if (i == 3) linger();
#pragma omp atomic
    sum += i;
  }
  return sum;
}

int main(void) {
  for (int round = 0; round < 10; round++) {
    long all = 0;
#pragma omp parallel
    {
#pragma omp single nowait
#pragma omp taskloop num_tasks(6) shared(all)
      for (int i = 0; i < 12; i++) {
        long sum = inner(i);
        expect("the sum of an inner taskloop", sum, i * (i - 1L) / 2);
#pragma omp atomic
        all += sum;
      }
#pragma omp task shared(all)
      {
        long sum = inner(9);
        expect("the sum of a taskloop in a task", sum, 36);
      }
    }
    expect("the sum of all", all, 220);
  }
  return wrong;
}
