// With grainsize(g) each task has g to 2g - 1 turns, as long as there are so many; num_tasks(n) makes min(n, turns) tasks.
// openmp: 12.6.1 grainsize clause, 12.6.2 num_tasks clause
#include "expect.h"

#define TURNS 100
static long turns_of[TURNS + 1];
static int tasks;

static void count_turn(int *number) {
  if (*number < 0) {
#pragma omp atomic capture
    *number = tasks++;
  }
  count(&turns_of[*number]);
}

static void forget(void) {
  for (int i = 0; i < TURNS; i++) turns_of[i] = 0;
  tasks = 0;
}

static void by_grain(int turns, int grain) {
  int number = -1, sum = 0;
#pragma omp taskloop grainsize(grain) firstprivate(number)
  for (int i = 0; i < turns; i++) count_turn(&number);
  for (int i = 0; i < tasks; i++) {
    sum += turns_of[i];
    if (turns_of[i] < grain && turns >= grain) expect("turns of a task, at least the grain size", turns_of[i], grain);
    if (turns_of[i] >= 2 * grain) expect("turns of a task, below twice the grain size", turns_of[i], 2 * grain - 1);
  }
  expect("turns of all tasks", sum, turns);
  forget();
}

static void by_number(int turns, int wanted) {
  int number = -1;
#pragma omp taskloop num_tasks(wanted) firstprivate(number)
  for (int i = 0; i < turns; i++) count_turn(&number);
  expect("tasks by num_tasks", tasks, wanted < turns ? wanted : turns);
  forget();
}

int main(void) {
#pragma omp parallel
#pragma omp single
  for (int turns = 1; turns <= 30; turns += 3)
    for (int size = 1; size <= 12; size++) {
      by_grain(turns, size);
      by_number(turns, size);
    }
  return wrong;
}
