// In each of many regions, each thread makes chains of short tasks, one for each of its names; each chain runs in order.
// openmp: 15.9.5 depend clause
#include "expect.h"

#define THREADS 16
#define NAMES 3
#define TASKS 20
static long ran[THREADS][NAMES];

static void chains(long *mine) {
  for (long i = 0; i < TASKS; i++)
    for (int name = 0; name < NAMES; name++) {
      long *it = &mine[name];
#pragma omp task depend(inout : *it)
      {
        expect("tasks of a chain before this one", *it, i);
        ++*it;
      }
    }
#pragma omp taskwait
  for (int name = 0; name < NAMES; name++) expect("tasks of a chain", mine[name], TASKS);
}

int main(void) {
  for (int region = 0; region < 40; region++) {
    for (int thread = 0; thread < THREADS; thread++)
      for (int name = 0; name < NAMES; name++) ran[thread][name] = 0;
#pragma omp parallel
    chains(ran[omp_get_thread_num() % THREADS]);
  }
  return wrong;
}
