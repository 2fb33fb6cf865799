// Objects that were copied for tasks of a cancelled group are destroyed, whether or not their tasks run; also where the
// group is cancelled while they are copied.
// openmp: 16.1 cancel construct, 5.4.4 firstprivate clause
// env: OMP_CANCELLATION=true
#include "expect.h"

static long alive, copying;

struct Counted {
  int value;
  explicit Counted(int value) : value(value) { add(1); }
  Counted(const Counted &other) : value(other.value) {
    add(1);
    set(&copying);
    linger();
  }
  ~Counted() { add(-1); }
  static void add(long by) {
#pragma omp atomic
    alive += by;
  }
};

static void create_all() {
  Counted counted(3);
#pragma omp taskgroup
  for (int i = 0; i < 30; i++) {
#pragma omp task firstprivate(counted)
    {
      expect("the copy's value", counted.value, 3);
      if (i == 2) {
#pragma omp cancel taskgroup
      }
      linger();
    }
  }
}

static void create_by_taskloop() {
  Counted counted(3);
#pragma omp taskgroup
  {
#pragma omp task
    {
      for (int look = 0; look < 20 && !now(&copying); look++) linger();
#pragma omp cancel taskgroup
    }
#pragma omp taskloop nogroup firstprivate(counted) num_tasks(7)
    for (int i = 0; i < 30; i++) expect("the copy's value", counted.value, 3);
  }
}

int main() {
  for (int round = 0; round < 20; round++) {
    copying = 0;
#pragma omp parallel
#pragma omp single
    if (round % 2) {
      create_all();
    } else {
      create_by_taskloop();
    }
    expect("objects that were not destroyed", alive, 0);
  }
  return wrong;
}
