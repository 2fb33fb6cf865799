// firstprivate keeps what a variable had at the creation, private is the task's own, shared is the creator's.
// openmp: 5.4.3 private clause, 5.4.4 firstprivate clause, 5.4.2 shared clause
#include "expect.h"

struct Block { int numbers[40]; };

static void create_all(int *sum) {
  struct Block block;
  int own = -1;
  for (int i = 0; i < 30; i++) {
    for (int k = 0; k < 40; k++) block.numbers[k] = i;
#pragma omp task firstprivate(block, i) private(own) shared(sum)
    {
      if (i % 4 == 0) linger();
      own = i;
      for (int k = 0; k < 40; k++) expect("a number of the creation", block.numbers[k], i);
      expect("the task's own variable", own, i);
#pragma omp atomic
      *sum += 1;
    }
  }
  expect("the creator's variable", own, -1);
}

int main(void) {
  for (int round = 0; round < 10; round++) {
    int sum = 0;
#pragma omp parallel
#pragma omp single
    create_all(&sum);
    expect("what tasks added to a shared variable", sum, 30);
  }
  return wrong;
}
