// Tasks that exclude their neighbours by two items each, in both orders, never meet, and all of them run.
// openmp: 15.9.5 depend clause
#include "expect.h"

#define SEATS 5
static int forks[SEATS + 1];
static long inside[SEATS + 1], meals;

static void eat(int left, int right) {
  long others;
#pragma omp atomic capture
  others = inside[left]++;
  expect("others at the first item", others, 0);
#pragma omp atomic capture
  others = inside[right]++;
  expect("others at the second item", others, 0);
  linger();
#pragma omp atomic
  inside[left]--;
#pragma omp atomic
  inside[right]--;
  count(&meals);
}

int main(void) {
  for (int round = 1; round <= 10; round++) {
#pragma omp parallel
#pragma omp single
    for (int i = 0; i < 4 * SEATS; i++) {
      int left = i % SEATS, right = (i + 1) % SEATS;
      if (i % 3 == 0) left = right, right = i % SEATS;
#pragma omp task depend(mutexinoutset : forks[left], forks[right])
      eat(left, right);
    }
    expect("tasks that ran", meals, 4L * SEATS * round);
  }
  return wrong;
}
