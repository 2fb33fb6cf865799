// Objects in firstprivate, private and lastprivate of a taskloop, deferred or not: as many are destroyed as made, and the
// last turn's is assigned.
// openmp: 12.6 taskloop construct, 5.4.3 to 5.4.5 data-sharing clauses
#include "expect.h"

static long alive, copies, turns;

struct Counted {
  volatile int value;   // -9 once it is destroyed
  Counted() : value(-1) { add(1); }
  explicit Counted(int value) : value(value) { add(1); }
  Counted(const Counted &other) : value(other.value) {
    add(1);
    count(&copies);
  }
  Counted &operator=(const Counted &other) {
    value = other.value;
    return *this;
  }
  ~Counted() {
    value = -9;
    add(-1);
  }
  static void add(long by) {
#pragma omp atomic
    alive += by;
  }
};

static void loop(int round) {
  Counted first(round), own(5), last(3);
#pragma omp taskloop firstprivate(first) private(own) lastprivate(last) num_tasks(7) if (round % 2)
  for (int i = 0; i < 30; i++) {
    expect("a copy's value", first.value, round);
    count(&turns);
    if (i % 6 == 0) {
#pragma omp task
      linger();
    }
    own.value = last.value = i;
  }
  expect("the lastprivate object", last.value, 29);
  expect("the creator's private object", own.value, 5);
}

int main() {
  for (int round = 0; round < 10; round++) {
    copies = turns = 0;
#pragma omp parallel
#pragma omp single
    loop(round);
    expect("objects that were not destroyed", alive, 0);
    expect_so("each task had a copy", copies >= 7);
    expect("turns", turns, 30);
  }
  return wrong;
}
