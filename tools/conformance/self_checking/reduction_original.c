// What a declared reduction begins with may depend on the original item, at any depth of tasks.
// openmp: 5.5.9 task_reduction clause, 5.5.10 in_reduction clause, 5.5.11 declare reduction directive
#include "expect.h"

struct part {
  long scale, sum;
};

static void begin(struct part *own, const struct part *original) {
  own->scale = original->scale;
  own->sum = 0;
}

#pragma omp declare reduction(scaled : struct part : omp_out.sum += omp_in.sum) initializer(begin(&omp_priv, &omp_orig))

enum { TASKS = 10 };

static void add_in_tasks(struct part *total) {
  struct part first = *total, second = {5, 0};
#pragma omp taskgroup task_reduction(scaled : first, second)
  for (int i = 1; i <= TASKS; i++) {
#pragma omp task in_reduction(scaled : first, second)
    {
      expect("the scale of a task's own item", first.scale, 3);
      first.sum += first.scale * i;
#pragma omp task in_reduction(scaled : first, second)
      {
        linger();
        expect("the scale of an inner task's own item", second.scale, 5);
        second.sum += second.scale * i;
        first.sum += first.scale;
      }
#pragma omp taskwait
    }
  }
  expect("the sum of the first item", first.sum, 3 * (55 + TASKS));
  expect("the sum of the second item", second.sum, 5 * 55);
}

int main(void) {
  for (int round = 0; round < 10; round++) {
    struct part total = {3, 0};
#pragma omp parallel
#pragma omp single
    add_in_tasks(&total);
  }
  return wrong;
}
