// Taskloops without turns, with one, with more tasks asked for than turns, and over the greatest and least numbers.
// openmp: 12.6 taskloop construct, 12.6.1 grainsize clause, 12.6.2 num_tasks clause
#include <limits.h>

#include "expect.h"

static long turns;

static void look(const char *what, long right) {
  expect(what, now(&turns), right);
  turns = 0;
}

static void of_none(int none) {
  unsigned long long first = 5ull << 40, last = first + (unsigned)none;
#pragma omp taskloop
  for (int i = 0; i < none; i++) count(&turns);
#pragma omp taskloop
  for (int i = none; i > 0; i--) count(&turns);
#pragma omp taskloop
  for (unsigned long long i = first; i < last; i++) count(&turns);
#pragma omp taskloop
  for (unsigned long long i = last; i > first; i--) count(&turns);
  look("turns of taskloops without any", 0);
}

static void of_edges(int none) {
#pragma omp taskloop num_tasks(100)
  for (int i = 0; i < none + 1; i++) count(&turns);
  look("turns of a taskloop with one", 1);
#pragma omp taskloop num_tasks(1000)
  for (int i = 0; i < none + 33; i++) count(&turns);
  look("turns where more tasks are asked for", 33);
#pragma omp taskloop grainsize(1000)
  for (int i = 0; i < none + 33; i++) count(&turns);
  look("turns where the grain is larger than the loop", 33);
#pragma omp taskloop num_tasks(4)
  for (int i = INT_MIN; i < INT_MIN + 21; i += 5) count(&turns);
  look("turns from the least int", 5);
#pragma omp taskloop grainsize(2)
  for (long long i = LLONG_MAX - 1; i > LLONG_MAX - 100; i -= 9) count(&turns);
  look("turns from the greatest long", 11);
#pragma omp taskloop
  for (unsigned char c = 250; c < 255; c++) count(&turns);
  look("turns of an unsigned char", 5);
}

int main(void) {
  for (int round = 0; round < 10; round++) {
#pragma omp parallel
#pragma omp single
    {
      of_none(0);
      of_edges(0);
    }
  }
  return wrong;
}
