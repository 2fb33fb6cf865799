// Objects of a class in firstprivate are copied for each task and destroyed as often as they were made.
// openmp: 5.4.4 firstprivate clause
#include "expect.h"

static int alive, copies;

struct Counted {
  int value;
  explicit Counted(int value) : value(value) { change(1); }
  Counted(const Counted &other) : value(other.value) {
    change(1);
#pragma omp atomic
    copies++;
  }
  ~Counted() { change(-1); }
  static void change(int by) {
#pragma omp atomic
    alive += by;
  }
};

static void create_all() {
  for (int i = 0; i < 20; i++) {
    Counted counted(i);
#pragma omp task firstprivate(counted)
    {
      if (i % 3 == 0) linger();
      expect("the copy's value", counted.value, i);
#pragma omp task firstprivate(counted) if (i % 2)
      expect("the copy's value below", counted.value, i);
    }
  }
#pragma omp taskloop firstprivate(alive) num_tasks(3)
  for (int i = 0; i < 9; i++) linger();
}

int main() {
  for (int round = 1; round <= 10; round++) {
#pragma omp parallel
#pragma omp single
    create_all();
    expect("objects that were not destroyed", alive, 0);
    expect_so("each task had a copy", copies >= 40 * round);
  }
  return wrong;
}
