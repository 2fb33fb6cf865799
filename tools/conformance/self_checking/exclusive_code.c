// Critical sections, locks and nestable locks in tasks: one task at a time, and again by the task that holds it.
// openmp: 15.2 critical construct, 18.9 lock routines
#include "expect.h"

static omp_lock_t lock;
static omp_nest_lock_t nest;
static long by_critical, by_lock, by_nest;

static void add_to_all(void) {
#pragma omp critical(one)
  by_critical++;
  omp_set_lock(&lock);
  by_lock++;
  omp_unset_lock(&lock);
  omp_set_nest_lock(&nest);
  omp_set_nest_lock(&nest);
  by_nest++;
  omp_unset_nest_lock(&nest);
  by_nest++;
  omp_unset_nest_lock(&nest);
}

int main(void) {
  omp_init_lock(&lock);
  omp_init_nest_lock(&nest);
  for (int round = 1; round <= 20; round++) {
#pragma omp parallel
#pragma omp single
    for (int i = 0; i < 100; i++) {
#pragma omp task
      add_to_all();
    }
    expect("additions in a critical section", by_critical, 100L * round);
    expect("additions in a lock", by_lock, 100L * round);
    expect("additions in a nestable lock", by_nest, 200L * round);
  }
  return wrong;
}
