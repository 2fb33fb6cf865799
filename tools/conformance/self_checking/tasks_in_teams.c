// Regions in the teams of a league are apart: each waits for its own tasks, and a reduction of one is not another's.
// openmp: 10.2 teams construct, 10.1 parallel construct, 12.5 task construct
#include "expect.h"

int main(void) {
  for (int round = 0; round < 10; round++) {
    long teams = 0, sums = 0;
#pragma omp teams num_teams(3) thread_limit(4) reduction(+ : teams, sums)
    {
      long sum = 0, ended = 0;
#pragma omp parallel num_threads(2) shared(sum, ended)
#pragma omp single
      {
#pragma omp taskgroup task_reduction(+ : sum)
        for (int i = 0; i < 5; i++) {
#pragma omp task in_reduction(+ : sum) shared(ended)
          {
            sum += i;
            count_late(&ended);
          }
        }
        expect("tasks of a team behind their group", now(&ended), 5);
#pragma omp task shared(ended)
        count_late(&ended);
      }
      expect("tasks of a team behind its region", ended, 6);
      teams++;
      sums += sum;
    }
    expect("the sums of all teams", sums, 10 * teams);
  }
  return wrong;
}
