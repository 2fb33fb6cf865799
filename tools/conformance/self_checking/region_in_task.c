// A task may have a region of its own: a team with a barrier, worksharing and tasks, one for each task.
// openmp: 10.1 parallel construct
// env: OMP_MAX_ACTIVE_LEVELS=3
#include "expect.h"

int main(void) {
  for (int round = 0; round < 10; round++) {
    int sum = 0;
    long tasks = 0;
#pragma omp parallel num_threads(2)
#pragma omp single
    for (int i = 0; i < 4; i++) {
#pragma omp task shared(sum, tasks)
      {
        int team = 0;
#pragma omp parallel num_threads(2) shared(team)
        {
#pragma omp for reduction(+ : team)
          for (int k = 0; k < 10; k++) team += k;
#pragma omp task shared(tasks)
          count(&tasks);
        }
        expect("the sum of a region in a task", team, 45);
#pragma omp atomic
        sum += team;
      }
    }
    expect("the sum of all", sum, 180);
    expect_so("each thread of each team made a task", tasks >= 4 && tasks <= 8);
  }
  return wrong;
}
