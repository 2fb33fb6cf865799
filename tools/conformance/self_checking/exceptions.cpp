// What a task throws it may catch itself: objects in between are destroyed, copies too, and its waits end.
// openmp: 12.5 task construct, 5.4.4 firstprivate clause
#include "expect.h"

static long alive, caught;

struct Counted {
  Counted() { add(1); }
  Counted(const Counted &) { add(1); }
  ~Counted() { add(-1); }
  static void add(long by) {
#pragma omp atomic
    alive += by;
  }
};

static void below(int depth) {
  Counted here;
  if (depth == 0) throw depth;
  below(depth - 1);
}

static void create_all() {
  for (int i = 0; i < 20; i++) {
    Counted copied;
#pragma omp task firstprivate(copied) if (i % 4)
    {
      try {
#pragma omp task firstprivate(copied)
        linger();
        below(i % 5);
      } catch (int) {
        count(&caught);
      }
#pragma omp taskwait
    }
  }
}

int main() {
  for (int round = 1; round <= 10; round++) {
#pragma omp parallel
#pragma omp single
    create_all();
    expect("exceptions that were caught", caught, 20L * round);
    expect("objects that were not destroyed", alive, 0);
  }
  return wrong;
}
