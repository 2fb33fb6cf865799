// A group whose tasks are made by several tasks, by undeferred ones too, and taken from its midst by waits for children,
// waits for each of them.
// openmp: 15.4 taskgroup construct, 15.5 taskwait construct
#include "expect.h"

#define MAKERS 6
#define CHILDREN 8
static long runs;

static void make(int late) {
  for (int i = 0; i < CHILDREN; i++) {
#pragma omp task
    {
      if ((i + late) % 5 == 0) linger();
      count(&runs);
    }
  }
}

int main(void) {
  for (int round = 0; round < 30; round++) {
    runs = 0;
#pragma omp parallel
#pragma omp single
    {
#pragma omp taskgroup
      for (int maker = 0; maker < MAKERS; maker++) {
#pragma omp task
        {
          make(maker);
#pragma omp task if (0)
          make(maker + 2);
#pragma omp taskwait
          make(maker + 1);
        }
      }
      expect("tasks that ran before the group's end", now(&runs), MAKERS * CHILDREN * 3);
    }
  }
  return wrong;
}
