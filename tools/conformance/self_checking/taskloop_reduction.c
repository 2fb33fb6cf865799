// A taskloop reduces its own items; its tasks may take part in a reduction of a group around it; no turn leaves both.
// openmp: 12.6 taskloop construct, 5.5.8 reduction clause
#include "expect.h"

static void of_turns(int turns) {
  long own = 1, around = 2;
#pragma omp parallel
#pragma omp single
#pragma omp taskgroup task_reduction(+ : around)
  {
#pragma omp taskloop reduction(+ : own) in_reduction(+ : around)
    for (int i = 0; i < turns; i++) {
      own += i;
      around += 2;
    }
    expect("the taskloop's item behind it", own, 1 + turns * (turns - 1L) / 2);
  }
  expect("the group's item", around, 2 + 2L * turns);
}

int main(void) {
  for (int round = 0; round < 10; round++) {
    of_turns(0);
    of_turns(1);
    of_turns(37);
  }
  return wrong;
}
