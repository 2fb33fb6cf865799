// What a task sets for itself (threads of its regions, schedule) its creator and its siblings do not see; children do, and
// the implicit tasks of its regions.
// openmp: 2.4 how the per-data environment ICVs work
#include "expect.h"

static void look_from_child(int threads) {
#pragma omp task
  expect("threads as the child of the task that set them", omp_get_max_threads(), threads);
#pragma omp taskwait
}

static void look_from_region(omp_allocator_handle_t allocator, int chunk) {
  omp_set_default_allocator(allocator);
  omp_set_schedule(omp_sched_dynamic, chunk);
#pragma omp parallel
  {
    omp_sched_t kind;
    int seen = 0;
    omp_get_schedule(&kind, &seen);
    expect("iterations of a chunk in a region", seen, chunk);
    expect("the default allocator in a region", (long)omp_get_default_allocator(), (long)allocator);
  }
}

int main(void) {
  look_from_region(omp_large_cap_mem_alloc, 5);
  look_from_region(omp_default_mem_alloc, 3);
  for (int round = 0; round < 20; round++) {
#pragma omp parallel
#pragma omp single
    {
      int before = omp_get_max_threads();
#pragma omp task
      {
        omp_set_num_threads(before + 3);
        omp_set_schedule(omp_sched_dynamic, 7);
        look_from_child(before + 3);
      }
#pragma omp taskwait
      expect("threads as the creator of the task that set them", omp_get_max_threads(), before);
#pragma omp task
      expect("threads as its sibling", omp_get_max_threads(), before);
#pragma omp task if(0)
      omp_set_num_threads(before + 5);
      expect("threads as the creator of an undeferred task that set them", omp_get_max_threads(), before);
    }
  }
  return wrong;
}
