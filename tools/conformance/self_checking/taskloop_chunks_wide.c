// A taskloop over an unsigned 64-bit variable has each turn once, and tasks as large as its clauses say, upwards and
// downwards, deferred or not.
// openmp: 12.6.1 grainsize clause, 12.6.2 num_tasks clause, 4.4.1 canonical loop nest form
#include <stdint.h>

#include "expect.h"

#define TURNS 30
static long seen[TURNS + 1], turns_of[TURNS + 1];
static int tasks;

static void run(uint64_t turn, int *number) {
  if (*number < 0) {
#pragma omp atomic capture
    *number = tasks++;
  }
  count(&turns_of[*number < TURNS ? *number : TURNS]);
  count(&seen[turn < TURNS ? turn : TURNS]);
}

static void look(const char *what, int turns, int right) {
  for (int i = 0; i <= TURNS; i++) expect("runs of a turn", seen[i], i < turns);
  expect(what, tasks, right);
  for (int i = 0; i <= TURNS; i++) seen[i] = turns_of[i] = 0;
  tasks = 0;
}

static void by_grain(int turns, int grain, int deferred) {
  const uint64_t first = UINT64_MAX - 200, past = first + 3 * turns;
  int number = -1;
#pragma omp taskloop grainsize(grain) firstprivate(number) if (deferred)
  for (uint64_t i = first; i < past; i += 3) run((i - first) / 3, &number);
  for (int i = 0; i < tasks && i < TURNS && turns >= grain; i++)
    expect_so("turns of a task, from the grain size to below twice", turns_of[i] >= grain && turns_of[i] < 2 * grain);
  look("any number of tasks", turns, tasks);
}

static void by_number(int turns, int wanted, int deferred) {
  const uint64_t first = UINT64_MAX - 200, past = first + 2 * turns;
  const int right = wanted < turns ? wanted : turns;
  int number = -1;
#pragma omp taskloop num_tasks(wanted) firstprivate(number) if (deferred)
  for (uint64_t i = past; i > first; i -= 2) run((past - i) / 2, &number);
  look("tasks by num_tasks", turns, right);
#pragma omp taskloop num_tasks(strict : wanted) firstprivate(number) if (deferred)
  for (uint64_t i = first; i < past; i += 2) run((i - first) / 2, &number);
  look("tasks by num_tasks, strict", turns, right);
}

static void by_strict_grain(int turns, int grain, int deferred) {
  const uint64_t first = UINT64_MAX - 200, past = first + 3 * turns;
  int number = -1;
#pragma omp taskloop grainsize(strict : grain) firstprivate(number) if (deferred)
  for (uint64_t i = past; i > first; i -= 3) run((past - i) / 3, &number);
  look("tasks by grainsize, strict", turns, (turns + grain - 1) / grain);
}

static void with_sizes(void (*loop)(int turns, int size, int deferred)) {
  for (int turns = 1; turns <= TURNS; turns += 4)
    for (int size = 1; size <= 12; size += 2) loop(turns, size, size & 2);
}

int main(void) {
#pragma omp parallel
#pragma omp single
  {
    with_sizes(by_grain);
    with_sizes(by_number);
    with_sizes(by_strict_grain);
  }
  return wrong;
}
