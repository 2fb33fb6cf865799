// A taskloop has each turn once, whatever its step, its direction and the width of its variable.
// openmp: 12.6 taskloop construct, 4.4.1 canonical loop nest form
#include <stdint.h>

#include "expect.h"

#define TURNS 200
static long seen[TURNS];

static void once(long turn) {
  if (turn < 0 || turn >= TURNS) {
    expect("the number of a turn, of which 0 to 199 are right", turn, turn < 0 ? 0 : TURNS - 1);
    return;
  }
  count(&seen[turn]);
}

static void look(const char *loop, int turns) {
  for (int i = 0; i < TURNS; i++) expect(loop, seen[i], i < turns);
  for (int i = 0; i < TURNS; i++) seen[i] = 0;
}

static void narrow(void) {
#pragma omp taskloop
  for (int i = 5; i < 101; i += 3) once((i - 5) / 3);
  look("runs of a turn, step 3", 32);
#pragma omp taskloop grainsize(4)
  for (int i = 100; i > -20; i -= 7) once((100 - i) / 7);
  look("runs of a turn, step -7", 18);
#pragma omp taskloop num_tasks(5)
  for (unsigned i = 4000000000u; i <= 4294967200u; i += 100000000u) once((i - 4000000000u) / 100000000u);
  look("runs of a turn, unsigned", 3);
#pragma omp taskloop
  for (int i = 10; i != 40; i++) once(i - 10);
  look("runs of a turn, !=", 30);
}

static void wide(void) {
  const int64_t far = INT64_C(1) << 40;
#pragma omp taskloop
  for (int64_t i = -far; i < far; i += far / 8) once((i + far) / (far / 8));
  look("runs of a turn, beyond 32 bits", 16);
#pragma omp taskloop num_tasks(7)
  for (uint64_t i = UINT64_MAX - 50; i < UINT64_MAX; i += 2) once((i - (UINT64_MAX - 50)) / 2);
  look("runs of a turn, up to the greatest number", 25);
#pragma omp taskloop
  for (uint64_t i = 90; i > 40; i -= 9) once((90 - i) / 9);
  look("runs of a turn, 64 bits downwards", 6);
#pragma omp taskloop
  for (long *p = seen; p < seen + 90; p += 10) count(p);
  for (int i = 0; i < TURNS; i++) expect("runs of a turn over pointers", seen[i], i < 90 && i % 10 == 0);
  for (int i = 0; i < TURNS; i++) seen[i] = 0;
}

int main(void) {
  for (int round = 0; round < 10; round++) {
#pragma omp parallel
#pragma omp single
    {
      narrow();
      wide();
    }
  }
  return wrong;
}
