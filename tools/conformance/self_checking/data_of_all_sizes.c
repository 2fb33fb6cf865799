// firstprivate keeps each byte of data of any size, while tasks with data of other sizes are created.
// openmp: 5.4.4 firstprivate clause
#include "expect.h"

static void fill(char *data, int size) {
  for (int k = 0; k < size; k++) data[k] = (char)(7 * size + k + 1);
}

static void look(const char *data, int size) {
  for (int k = 0; k < size; k++) expect("a byte of the creation", data[k], (char)(7 * size + k + 1));
}

#define TASK(SIZE)                          \
  {                                         \
    char data[SIZE];                        \
    fill(data, SIZE);                       \
    _Pragma("omp task firstprivate(data)")  \
    look(data, SIZE);                       \
  }
#define TASKS_FROM(SIZE) \
  TASK(SIZE) TASK(SIZE + 1) TASK(SIZE + 2) TASK(SIZE + 3) TASK(SIZE + 4) TASK(SIZE + 5) TASK(SIZE + 6) TASK(SIZE + 7)

static void create_all(void) {
  TASKS_FROM(1)
  TASKS_FROM(9)
  TASKS_FROM(17)
  TASKS_FROM(25)
  TASKS_FROM(33)
  TASKS_FROM(41)
}

int main(void) {
  for (int round = 0; round < 20; round++) {
#pragma omp parallel
#pragma omp single
    create_all();
  }
  return wrong;
}
