// A stream of writers and readers of few names runs in order, while tasks that ended make room for others.
// openmp: 15.9.5 depend clause
#include "expect.h"

#define NAMES 5
#define ROUNDS 600
static long written[NAMES];

static void write_to(int name, long before, int slow) {
#pragma omp task depend(out : written[name])
  {
    if (slow) linger();
    expect("writers before a writer", written[name], before);
    written[name]++;
  }
}

static void read_from(int name, long before, int slow) {
#pragma omp task depend(in : written[name])
  {
    if (slow) linger();
    expect("writers before a reader", written[name], before);
  }
}

static void stream(void) {
  for (int round = 0; round < ROUNDS; round++)
    for (int name = 0; name < NAMES; name++) {
      const int slow = (round + name) % 16;
      write_to(name, 3 * round, slow == 0);
      read_from(name, 3 * round + 1, slow == 1);
      write_to(name, 3 * round + 1, slow == 2);
      write_to(name, 3 * round + 2, slow == 3);
    }
}

int main(void) {
  for (int run = 0; run < 2; run++) {
    for (int name = 0; name < NAMES; name++) written[name] = 0;
#pragma omp parallel
#pragma omp single
    stream();
    for (int name = 0; name < NAMES; name++) expect("writers in all", written[name], 3 * ROUNDS);
  }
  return wrong;
}
