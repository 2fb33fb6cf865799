// A reduction that the program declares, over a structure, with an initializer.
// openmp: 5.5.11 declare reduction directive
#include "expect.h"

struct Range { int least, most, count; };

static void join(struct Range *to, const struct Range *from) {
  if (from->least < to->least) to->least = from->least;
  if (from->most > to->most) to->most = from->most;
  to->count += from->count;
}

#pragma omp declare reduction(range : struct Range : join(&omp_out, &omp_in)) \
    initializer(omp_priv = {1000, -1000, 0})

int main(void) {
  for (int round = 0; round < 20; round++) {
    struct Range range = {50, 50, 1};
#pragma omp parallel
#pragma omp single
#pragma omp taskgroup task_reduction(range : range)
    for (int i = 0; i < 30; i++) {
#pragma omp task in_reduction(range : range)
      {
        struct Range one = {3 * i, 3 * i, 1};
        join(&range, &one);
      }
    }
    expect("the least", range.least, 0);
    expect("the most", range.most, 87);
    expect("the count", range.count, 31);
  }
  return wrong;
}
