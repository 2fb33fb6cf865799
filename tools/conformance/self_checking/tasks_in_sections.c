// Tasks that are created in sections have ended behind the barrier of the sections.
// openmp: 11.3 sections construct
#include "expect.h"

static long sums[3];

static void add(int section) {
  for (int i = 1; i <= 10; i++) {
#pragma omp task firstprivate(i, section)
    {
      if (i == 5) linger();
#pragma omp atomic
      sums[section] += i;
    }
  }
}

int main(void) {
  for (int round = 1; round <= 20; round++) {
#pragma omp parallel
    {
#pragma omp sections
      {
#pragma omp section
        add(0);
#pragma omp section
        add(1);
#pragma omp section
        add(2);
      }
      for (int s = 0; s < 3; s++) expect("sum of a section's tasks", now(&sums[s]), 55L * round);
#pragma omp barrier
    }
  }
  return wrong;
}
